--  N6: a unit needs no name after its end.
--> spark check N6_no_closing_name.adb
--> status 0
--> out accepted
procedure Main is
begin
   null;
end;
