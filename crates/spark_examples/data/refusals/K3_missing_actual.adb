--  K3: a call has an actual for each formal.
--> spark check K3_missing_actual.adb
--> status 2
--> err K3_missing_actual.adb:18:4: K3 wrong profile
package Numbers is
   procedure Add (To : in out Integer; Value : Integer);
end Numbers;
package body Numbers is
   procedure Add (To : in out Integer; Value : Integer) is
   begin
      To := To + Value;
   end Add;
end Numbers;
with Numbers;
procedure Main is
   N : Integer := 0;
begin
   Numbers.Add (N);
end Main;
