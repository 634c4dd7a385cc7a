--  A2: a record may be passed without a copy, so it may not be one that the callee writes.
--> spark check A2_record_that_the_callee_writes.adb
--> status 1
--> err A2_record_that_the_callee_writes.adb:22:17: A2 Points.Origin: overlaps a global of the callee
package Points is
   type Point is record
      X, Y : Integer;
   end record;
   Origin : Point := (0, 0);
   procedure Move (By : Point);
end Points;
package body Points is
   procedure Move (By : Point) is
   begin
      Origin.X := Origin.X + By.X;
      Origin.Y := Origin.Y + By.X + By.Y;
   end Move;
end Points;
with Points;
procedure Main is
begin
   Points.Move (Points.Origin);
end Main;
