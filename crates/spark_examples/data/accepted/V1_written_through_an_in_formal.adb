--  V1: a procedure may write what an in formal of an access type designates.
--> spark check V1_written_through_an_in_formal.adb
--> status 0
--> out accepted
package Boxes is
   type Box is access Integer;
   Kept : Box;
   procedure Keep (B : Box);
end Boxes;
package body Boxes is
   procedure Keep (B : Box) is
   begin
      Kept := new Integer'(B.all);
      B.all := 0;
   end Keep;
end Boxes;
