--  K1: the full type of a private type doesn't have that type as a part of itself.
--> spark check K1_private_in_itself.adb
--> status 2
--> err K1_private_in_itself.adb:8:9: K1 wrong type
package Box is
   type Tree is private;
private
   type Tree is record
      Left, Right : Tree;
   end record;
end Box;
