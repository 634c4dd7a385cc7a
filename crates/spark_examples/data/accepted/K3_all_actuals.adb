--  K3: each formal has its actual, all of them by name.
--> spark check K3_all_actuals.adb
--> status 0
--> out accepted
package Numbers is
   procedure Add (To : in out Integer; Value : Integer);
end Numbers;
package body Numbers is
   procedure Add (To : in out Integer; Value : Integer) is
   begin
      To := To + Value;
   end Add;
end Numbers;
with Numbers;
procedure Main is
   N : Integer := 0;
begin
   Numbers.Add (Value => 1, To => N);
end Main;
