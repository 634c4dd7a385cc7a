package P is
   function Says (N : Integer) return Boolean;
end P;
package body P is
   function Says (N : Integer) return Boolean is
   begin
      return N > 2;
   end Says;
end P;
with P; use P;
with Ada.Text_IO; use Ada.Text_IO;
procedure Main is
begin
   if Says (1) and then Says (9) then
      Put_Line ("no");
   end if;
   if Says (3) and then (Says (2) or else Says (4)) then
      Put_Line ("yes");
   end if;
   loop
      exit when Says (1) or Says (5);
   end loop;
end Main;
