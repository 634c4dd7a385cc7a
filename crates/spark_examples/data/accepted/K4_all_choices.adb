--  K4: each value is covered once.
--> spark check K4_all_choices.adb
--> status 0
--> out accepted
procedure Main is
   type Color is (Red, Green, Blue);
   C : Color := Red;
begin
   case C is
      when Red =>
         null;
      when Green .. Blue =>
         null;
   end case;
end Main;
