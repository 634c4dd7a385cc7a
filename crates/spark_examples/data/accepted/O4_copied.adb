--  O4: two owners have two objects.
--> spark check O4_copied.adb
--> status 0
--> out accepted
procedure Main is
   type Int_Ptr is access Integer;
   X : Int_Ptr := new Integer'(1);
   Y, Z : Int_Ptr;
begin
   Y := X;
   Z := new Integer'(Y.all);
end Main;
