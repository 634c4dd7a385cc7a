--  N3: what is declared in the private part of a package isn't named from elsewhere.
--> spark check N3_private_part.adb
--> status 2
--> err N3_private_part.adb:12:8: N3 not visible
package Box is
private
   N : Integer;
end Box;
with Box;
procedure Main is
begin
   Box.N := 1;
end Main;
