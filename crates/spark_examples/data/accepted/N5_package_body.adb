--  N5: the body completes the declaration.
--> spark check N5_package_body.adb
--> status 0
--> out accepted
package Box is
   procedure Clear;
end Box;
package body Box is
   procedure Clear is
   begin
      null;
   end Clear;
end Box;
