--  K4: the choices of a case cover each value.
--> spark check K4_missing_choice.adb
--> status 2
--> err K4_missing_choice.adb:9:4: K4 choice missing or doubled
procedure Main is
   type Color is (Red, Green, Blue);
   C : Color := Red;
begin
   case C is
      when Red =>
         null;
      when Blue =>
         null;
   end case;
end Main;
