--  N3: what is named from elsewhere stands in the visible part.
--> spark check N3_visible_part.adb
--> status 0
--> out accepted
package Box is
   N : Integer;
end Box;
with Box;
procedure Main is
begin
   Box.N := 1;
end Main;
