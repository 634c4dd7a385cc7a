--  L1: tokens need a separator only where they would else be one token.
--> spark check L1_no_blanks.adb
--> status 0
--> out accepted
with Ada.Unchecked_Deallocation;procedure Main is type P is access Integer;
procedure Free is new Ada.Unchecked_Deallocation(Integer,P);
X,Y:P;N:Integer;begin X:=new Integer'(7);Y:=X;N:=Y.all;Free(Y);end Main;--
