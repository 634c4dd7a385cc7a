--  K4: the choices of a case are static.
--> spark check K4_variable_as_choice.adb
--> status 2
--> err K4_variable_as_choice.adb:10:12: K4 choice missing or doubled
procedure Main is
   Limit : Integer := 10;
   N : Integer := 0;
begin
   case N is
      when Limit =>
         null;
      when others =>
         null;
   end case;
end Main;
