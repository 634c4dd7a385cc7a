with Ada.Text_IO; use Ada.Text_IO;
procedure Main is
   type Color is (Red, Green, Blue);
   subtype Digit is Integer range 1 .. 9;
   N : Integer := 4;
   K : Color := Green;
begin
   for I in reverse 2 .. N loop
      N := N + I;
      for J in I .. 3 loop
         exit when J = I + 1;
         case J - I is
            when -3 .. -1 | 1 => Put ("a");
            when 0 => Put (Integer'Image (J));
            when others => Put ("b");
         end case;
      end loop;
   end loop;
   for I in 5 .. 4 loop
      N := 0;
   end loop;
   while N > 10 loop
      N := N - 1;
      K := Blue;
   end loop;
   for C in reverse Red .. K loop
      Put (Color'Image (C));
   end loop;
   New_Line;
   for D in Digit range 3 .. N loop
      Put (Integer'Image (D * 2));
   end loop;
end Main;
