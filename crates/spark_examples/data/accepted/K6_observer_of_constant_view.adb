--  K6: an observer may have another observer as its initial value.
--> spark check K6_observer_of_constant_view.adb
--> status 0
--> out accepted
procedure Main is
   type Link is access Integer;
   X : Link := new Integer'(1);
   C : access constant Integer := X;
   B : access constant Integer := C;
begin
   null;
end Main;
