--  Each part of an object that still owns a cell gets a line, in the order of the parts. The
--  first component is null, so it gets none.
--> spark run leaks_of_one_object.adb
--> status 5
--> err leaks_of_one_object.adb:21:1: leak of cell 2
--> err leaks_of_one_object.adb:21:1: leak of cell 3
--> err leaks_of_one_object.adb:21:1: leak of cell 1
procedure Main is
   type Int_Ptr is access Integer;
   type Pair is array (1 .. 2) of Int_Ptr;
   type Node is record
      Parent : Int_Ptr;
      Sides  : Pair;
      Label  : Int_Ptr;
   end record;
   N : Node;
begin
   N.Label := new Integer'(0);
   N.Sides (1) := new Integer'(1);
   N.Sides (2) := new Integer'(2);
end Main;
