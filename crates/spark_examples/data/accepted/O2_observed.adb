--  O2: what is observed may be compared with null, and so may the observer.
--> spark check O2_observed.adb
--> status 0
--> out accepted
procedure Main is
   type Int_Ptr is access Integer;
   X : Int_Ptr := new Integer'(7);
   N : Integer := 0;
begin
   declare
      C : access constant Integer := X;
   begin
      if X /= null and then C /= null then
         N := C.all;
      end if;
   end;
end Main;
