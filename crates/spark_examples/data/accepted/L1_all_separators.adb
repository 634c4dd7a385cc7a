--  L1: blank, tab, vertical tab, form feed, carriage return and line feed separate tokens.
--> spark check L1_all_separators.adb
--> status 0
--> out accepted
with	Ada . Unchecked_Deallocation;procedure
Main is N		: Integer;

begin N:=1

; end
Main;