--  V1: a procedure that should only read a record changes what the record leads to.
--> spark check V1_reader_that_writes.adb
--> status 1
--> err V1_reader_that_writes.adb:18:7: V1 A.Balance.all: constant view
package Accounts is
   type Int_Ptr is access Integer;
   type Account is record
      Number  : Integer;
      Balance : Int_Ptr;
   end record;
   procedure Show (A : Account);
end Accounts;
with Ada.Text_IO;
package body Accounts is
   procedure Show (A : Account) is
   begin
      Ada.Text_IO.Put_Line (Integer'Image (A.Balance.all));
      A.Balance.all := 0;
   end Show;
end Accounts;
with Accounts; use Accounts;
procedure Main is
   A : Account := (1, new Integer'(7));
begin
   Show (A);
   Show (A);
end Main;
