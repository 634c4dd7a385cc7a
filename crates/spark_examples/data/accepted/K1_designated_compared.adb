--  K1: two access objects aren't compared, but what they designate is.
--> spark check K1_designated_compared.adb
--> status 0
--> out accepted
procedure Main is
   type Int_Ptr is access Integer;
   X : Int_Ptr := new Integer'(1);
   Y : Int_Ptr := new Integer'(1);
   N : Integer := 0;
begin
   if X.all = Y.all then
      N := 1;
   end if;
end Main;
