--  K1: First, Last, Length and Range have an array and not an access to one. Ada allows it.
--> spark check K1_attribute_of_access.adb
--> status 2
--> err K1_attribute_of_access.adb:11:9: K1 wrong type
procedure Main is
   type Row is array (1 .. 3) of Integer;
   type Link is access Row;
   X : Link := new Row;
   N : Integer;
begin
   N := X'Last;
end Main;
