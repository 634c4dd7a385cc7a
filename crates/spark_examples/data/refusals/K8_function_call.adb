--  K8: the initial value of a package object calls no function of the program. Ada allows it.
--> spark check K8_function_call.adb
--> status 2
--> err K8_function_call.adb:13:23: K8 package value
package Numbers is
   function One return Integer;
end Numbers;
package body Numbers is
   function One return Integer is
   begin
      return 1;
   end One;
   Count : Integer := One;
end Numbers;
