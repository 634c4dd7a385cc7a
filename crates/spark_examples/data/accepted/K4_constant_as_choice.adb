--  K4: a constant with a static value is a choice.
--> spark check K4_constant_as_choice.adb
--> status 0
--> out accepted
procedure Main is
   Limit : constant Integer := 10;
   N : Integer := 0;
begin
   case N is
      when Limit =>
         null;
      when others =>
         null;
   end case;
end Main;
