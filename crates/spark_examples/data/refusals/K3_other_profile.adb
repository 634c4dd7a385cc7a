--  K3: a body has the profile of its declaration.
--> spark check K3_other_profile.adb
--> status 2
--> err K3_other_profile.adb:9:13: K3 wrong profile
package Numbers is
   function Half (N : Integer) return Integer;
end Numbers;
package body Numbers is
   function Half (N : Natural) return Integer is
   begin
      return N / 2;
   end Half;
end Numbers;
