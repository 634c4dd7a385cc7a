--  K3: a plain loop needs no exit.
--> spark check K3_loop_without_exit.adb
--> status 0
--> out accepted
with Ada.Unchecked_Deallocation;
procedure Main is
   N : Integer;
begin
   loop
      N := 1;
   end loop;
end Main;
