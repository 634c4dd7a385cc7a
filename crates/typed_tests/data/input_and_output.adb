with Ada.Text_IO; use Ada.Text_IO;
with Ada.Integer_Text_IO; use Ada.Integer_Text_IO;
procedure Main is
type Row is array (Natural range 0 .. 1) of Integer;
V : Row; N : Integer;
begin
while not End_Of_File loop Get (V (N)); end loop;
for I in V'Range loop Put (Boolean'Image (True)); end loop;
for I in reverse Row'Range loop New_Line; end loop;
end Main;
