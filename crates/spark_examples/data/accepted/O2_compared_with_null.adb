--  O2: a name that wasn't moved may be compared with null.
--> spark check O2_compared_with_null.adb
--> status 0
--> out accepted
with Ada.Unchecked_Deallocation;
procedure Main is
type Int_Ptr is access Integer;
procedure Free is new Ada.Unchecked_Deallocation (Integer, Int_Ptr);
X, Y : Int_Ptr;
N : Integer;
begin
if X = null then null; end if;
end Main;
