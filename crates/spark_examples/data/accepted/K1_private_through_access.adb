--  K1: a private type may designate itself.
--> spark check K1_private_through_access.adb
--> status 0
--> out accepted
package Box is
   type Tree is private;
private
   type Link is access Tree;
   type Tree is record
      Left, Right : Link;
   end record;
end Box;
