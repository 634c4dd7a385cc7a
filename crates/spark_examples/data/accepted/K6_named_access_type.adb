--  K6: an object without a source is declared with a named access type.
--> spark check K6_named_access_type.adb
--> status 0
--> out accepted
procedure Main is
   type Int_Ptr is access Integer;
   X : Int_Ptr;
begin
   X := new Integer'(1);
end Main;
