--  K3: the actuals are all by position or all by name. Ada allows it.
--> spark check K3_mixed_actuals.adb
--> status 2
--> err K3_mixed_actuals.adb:18:4: K3 wrong profile
package Numbers is
   procedure Add (To : in out Integer; Value : Integer);
end Numbers;
package body Numbers is
   procedure Add (To : in out Integer; Value : Integer) is
   begin
      To := To + Value;
   end Add;
end Numbers;
with Numbers;
procedure Main is
   N : Integer := 0;
begin
   Numbers.Add (N, Value => 1);
end Main;
