--  N3: a name that two packages in use have is written with its package.
--> spark check N3_package_before_the_name.adb
--> status 0
--> out accepted
package Left is
   N : Integer;
end Left;
package Right is
   N : Integer;
end Right;
with Left; use Left;
with Right; use Right;
procedure Main is
begin
   Left.N := 1;
   Right.N := 2;
end Main;
