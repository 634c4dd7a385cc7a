--  The program that make 4 writes is accepted.
--> spark check make_four_is_accepted.adb
--> status 0
--> out accepted
with Ada.Unchecked_Deallocation;
package Work is
type Cell; type List is access Cell;
type Cell is record Value : Integer; Next : List; end record;
procedure Free is new Ada.Unchecked_Deallocation (Cell, List);
procedure P1 (L : in out List);
procedure P2 (L : in out List);
procedure P3 (L : in out List);
procedure P4 (L : in out List);
end Work;
package body Work is
procedure P1 (L : in out List) is begin L := new Cell'(1, L); end P1;
procedure P2 (L : in out List) is B : access Cell := L; begin B.Value := B.Value + 2; end P2;
procedure P3 (L : in out List) is S : Integer; begin declare C : access constant Cell := L; begin while C /= null loop S := (S + C.Value) mod 1000; C := C.Next; end loop; end; L.Value := S; end P3;
procedure P4 (L : in out List) is begin L := new Cell'(4, L); end P4;
end Work;
with Work; use Work; with Ada.Text_IO; use Ada.Text_IO;
procedure Main is L : List;
begin
P1 (L);
P2 (L);
P3 (L);
P4 (L);
Put_Line (Integer'Image (L.Value));
declare Old : List; begin while L /= null loop Old := L; L := Old.Next; Free (Old); end loop; end;
end Main;
