with Ada.Text_IO; use Ada.Text_IO;
procedure Main is
   type Color is (Red, Green, Blue);
   subtype Warm is Color range Red .. Green;
   type Row is array (-1 .. 1) of Integer;
   C : Color := Blue;
   W : Warm := Warm'First;
   R : Row := (others => -7);
   B : Boolean := True;
begin
   for I in reverse Row'Range loop
      R (I) := R (I) rem 4 + I;
      Put (Integer'Image (R (I)));
   end loop;
   New_Line;
   for K in Color loop
      case K is
         when Red | Blue => Put (Color'Image (K));
         when others => Put ("""" & Boolean'Image (K > W and then B) & """");
      end case;
   end loop;
   New_Line;
   B := not B or else R (0) / 0 = 1;
   W := C;
end Main;
