--  No path comes to a check after an endless loop, so it is not excused.
--> spark leaks after_endless_loop.adb
--> status 0
--> out after_endless_loop.adb:13:4: Y checked
--> out after_endless_loop.adb:17:4: X checked
--> out after_endless_loop.adb:18:1: X checked
--> out after_endless_loop.adb:18:1: Y checked
procedure After_Endless_Loop is
   type Int_Ptr is access Integer;
   X : Int_Ptr := new Integer'(1);
   Y : Int_Ptr;
begin
   Y := X;
   loop
      null;
   end loop;
   X := null;
end After_Endless_Loop;
