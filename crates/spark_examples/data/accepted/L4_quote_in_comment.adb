--  L4: a quote within a comment begins no string.
--> spark check L4_quote_in_comment.adb
--> status 0
--> out accepted
with Ada.Unchecked_Deallocation;
procedure Main is
   N : Integer;
begin
   N := 7;  --  "seven
end Main;
