--  K4: no value is covered twice.
--> spark check K4_doubled_choice.adb
--> status 2
--> err K4_doubled_choice.adb:12:20: K4 choice missing or doubled
procedure Main is
   type Color is (Red, Green, Blue);
   C : Color := Red;
begin
   case C is
      when Red =>
         null;
      when Green | Red .. Blue =>
         null;
   end case;
end Main;
