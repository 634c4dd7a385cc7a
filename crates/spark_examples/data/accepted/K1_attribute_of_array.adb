--  K1: an array that is designated has First, Last and Length.
--> spark check K1_attribute_of_array.adb
--> status 0
--> out accepted
procedure Main is
   type Row is array (1 .. 3) of Integer;
   type Link is access Row;
   X : Link := new Row;
   N : Integer;
begin
   N := X.all'Last;
end Main;
