--  The element that gets a value may be another one than the one that was moved.
--> spark leaks element.adb
--> status 0
--> out element.adb:14:4: X checked
--> out element.adb:15:4: R(?) checked
--> out element.adb:16:1: R(?) checked
--> out element.adb:16:1: X checked
procedure Element is
   type Int_Ptr is access Integer;
   type Row is array (1 .. 2) of Int_Ptr;
   R : Row;
   X : Int_Ptr;
begin
   X := R (1);
   R (1) := null;
end Element;
