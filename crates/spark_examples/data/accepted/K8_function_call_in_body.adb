--  K8: an object of a subprogram may begin with a call.
--> spark check K8_function_call_in_body.adb
--> status 0
--> out accepted
package Numbers is
   function One return Integer;
   function Two return Integer;
end Numbers;
package body Numbers is
   function One return Integer is
   begin
      return 1;
   end One;
   function Two return Integer is
      Count : Integer := One;
   begin
      return Count + 1;
   end Two;
end Numbers;
