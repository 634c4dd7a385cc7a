--  Each part is freed before the object goes out of scope.
--> spark run each_part_is_freed.adb
--> status 0
with Ada.Unchecked_Deallocation;
procedure Main is
   type Int_Ptr is access Integer;
   type Pair is array (1 .. 2) of Int_Ptr;
   type Node is record
      Parent : Int_Ptr;
      Sides  : Pair;
      Label  : Int_Ptr;
   end record;
   procedure Free is new Ada.Unchecked_Deallocation (Integer, Int_Ptr);
   N : Node;
begin
   N.Label := new Integer'(0);
   N.Sides (1) := new Integer'(1);
   N.Sides (2) := new Integer'(2);
   Free (N.Sides (1));
   Free (N.Sides (2));
   Free (N.Label);
end Main;
