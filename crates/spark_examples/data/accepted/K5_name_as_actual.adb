--  K5: a name of an access type is passed, and keeps its object.
--> spark check K5_name_as_actual.adb
--> status 0
--> out accepted
package Numbers is
   type Link is access Integer;
   procedure Show (L : Link);
end Numbers;
package body Numbers is
   procedure Show (L : Link) is
   begin
      null;
   end Show;
end Numbers;
with Numbers;
procedure Main is
   X : Numbers.Link := new Integer'(1);
begin
   Numbers.Show (X);
end Main;
