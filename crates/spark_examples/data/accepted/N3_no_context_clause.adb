--  N3: a unit that names no other unit needs no context clause.
--> spark check N3_no_context_clause.adb
--> status 0
--> out accepted
procedure Main is
   N : Integer;
begin
   N := 1;
end Main;
