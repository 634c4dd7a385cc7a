--  O6: what is observed may be observed and read.
--> spark check O6_two_observers.adb
--> status 0
--> out accepted
procedure Main is
   type Int_Ptr is access Integer;
   X : Int_Ptr := new Integer'(1);
   N : Integer;
begin
   declare
      B : access constant Integer := X;
      C : access constant Integer := X;
   begin
      N := B.all + C.all + X.all;
   end;
end Main;
