--  O1: a statement that no path reaches breaks no rule.
--> spark check O1_never_reached.adb
--> status 0
--> out accepted
procedure Main is
   type Int_Ptr is access Integer;
   X : Int_Ptr := new Integer'(7);
   Y : Int_Ptr;
   N : Integer;
begin
   Y := X;
   loop
      N := Y.all;
   end loop;
   N := X.all;
end Main;
