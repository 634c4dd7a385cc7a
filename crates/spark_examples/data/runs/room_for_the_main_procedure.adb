--  With one package object less there is room for the frame of the main procedure.
--> spark run room_for_the_main_procedure.adb
--> status 0
--> out  0
package Tables is
   type Table is array (1 .. 65_536) of Integer;
   A1, A2, A3, A4, A5, A6, A7, A8 : Table;
   B1, B2, B3, B4, B5, B6, B7, B8 : Table;
   C1, C2, C3, C4, C5, C6, C7, C8 : Table;
   D1, D2, D3, D4, D5, D6, D7, D8 : Table;
   E1, E2, E3, E4, E5, E6, E7, E8 : Table;
   F1, F2, F3, F4, F5, F6, F7, F8 : Table;
   G1, G2, G3, G4, G5, G6, G7, G8 : Table;
   H1, H2, H3, H4, H5, H6, H7     : Table;
end Tables;

with Ada.Text_IO; use Ada.Text_IO;
with Tables;
procedure Main is
begin
   Put_Line (Integer'Image (Tables.H7 (1)));
end Main;
