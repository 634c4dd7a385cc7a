--  K3: the body has the profile of its declaration.
--> spark check K3_same_profile.adb
--> status 0
--> out accepted
package Numbers is
   function Half (N : Integer) return Integer;
end Numbers;
package body Numbers is
   function Half (N : in Integer) return Integer is
   begin
      return N / 2;
   end Half;
end Numbers;
