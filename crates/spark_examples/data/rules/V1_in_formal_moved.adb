--  V1: an in formal of an access type may not be moved away.
--> spark check V1_in_formal_moved.adb
--> status 1
--> err V1_in_formal_moved.adb:14:15: V1 B: constant view
--> err V1_in_formal_moved.adb:15:4: O9 B: moved
package Boxes is
   type Box is access Integer;
   Kept : Box;
   procedure Keep (B : Box);
end Boxes;
package body Boxes is
   procedure Keep (B : Box) is
   begin
      Kept := B;
   end Keep;
end Boxes;
