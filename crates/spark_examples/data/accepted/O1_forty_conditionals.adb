--  O1: forty conditionals in a row, each of which may move X and then gives it a new value.
--> spark check O1_forty_conditionals.adb
--> status 0
--> out accepted
with Ada.Text_IO; use Ada.Text_IO;
with Ada.Integer_Text_IO; use Ada.Integer_Text_IO;
with Ada.Unchecked_Deallocation;
procedure Main is
   type Cell;
   type List is access Cell;
   type Cell is record
      Value : Integer;
      Next : List;
   end record;
   type Int_Ptr is access Integer;
   procedure Free is new Ada.Unchecked_Deallocation (Cell, List);
   procedure Drop is new Ada.Unchecked_Deallocation (Integer, Int_Ptr);
X, Y : Int_Ptr;
begin
if End_Of_File then Y := X; X := null; end if;
if End_Of_File then Y := X; X := null; end if;
if End_Of_File then Y := X; X := null; end if;
if End_Of_File then Y := X; X := null; end if;
if End_Of_File then Y := X; X := null; end if;
if End_Of_File then Y := X; X := null; end if;
if End_Of_File then Y := X; X := null; end if;
if End_Of_File then Y := X; X := null; end if;
if End_Of_File then Y := X; X := null; end if;
if End_Of_File then Y := X; X := null; end if;
if End_Of_File then Y := X; X := null; end if;
if End_Of_File then Y := X; X := null; end if;
if End_Of_File then Y := X; X := null; end if;
if End_Of_File then Y := X; X := null; end if;
if End_Of_File then Y := X; X := null; end if;
if End_Of_File then Y := X; X := null; end if;
if End_Of_File then Y := X; X := null; end if;
if End_Of_File then Y := X; X := null; end if;
if End_Of_File then Y := X; X := null; end if;
if End_Of_File then Y := X; X := null; end if;
if End_Of_File then Y := X; X := null; end if;
if End_Of_File then Y := X; X := null; end if;
if End_Of_File then Y := X; X := null; end if;
if End_Of_File then Y := X; X := null; end if;
if End_Of_File then Y := X; X := null; end if;
if End_Of_File then Y := X; X := null; end if;
if End_Of_File then Y := X; X := null; end if;
if End_Of_File then Y := X; X := null; end if;
if End_Of_File then Y := X; X := null; end if;
if End_Of_File then Y := X; X := null; end if;
if End_Of_File then Y := X; X := null; end if;
if End_Of_File then Y := X; X := null; end if;
if End_Of_File then Y := X; X := null; end if;
if End_Of_File then Y := X; X := null; end if;
if End_Of_File then Y := X; X := null; end if;
if End_Of_File then Y := X; X := null; end if;
if End_Of_File then Y := X; X := null; end if;
if End_Of_File then Y := X; X := null; end if;
if End_Of_File then Y := X; X := null; end if;
if End_Of_File then Y := X; X := null; end if;
end Main;
