--  K5: an in actual that owns an object is a name or null. Ada allows it.
--> spark check K5_allocator_as_actual.adb
--> status 2
--> err K5_allocator_as_actual.adb:19:18: K5 owning expression out of place
package Numbers is
   type Link is access Integer;
   procedure Show (L : Link);
end Numbers;
package body Numbers is
   procedure Show (L : Link) is
   begin
      null;
   end Show;
end Numbers;
with Numbers;
procedure Main is
   X : Numbers.Link := new Integer'(1);
begin
   Numbers.Show (new Integer'(1));
end Main;
