--  Zeros may lead.
--> spark make 00001
--> status 0
--> out with Ada.Unchecked_Deallocation;
--> out package Work is
--> out type Cell; type List is access Cell;
--> out type Cell is record Value : Integer; Next : List; end record;
--> out procedure Free is new Ada.Unchecked_Deallocation (Cell, List);
--> out procedure P1 (L : in out List);
--> out end Work;
--> out package body Work is
--> out procedure P1 (L : in out List) is begin L := new Cell'(1, L); end P1;
--> out end Work;
--> out with Work; use Work; with Ada.Text_IO; use Ada.Text_IO;
--> out procedure Main is L : List;
--> out begin
--> out P1 (L);
--> out Put_Line (Integer'Image (L.Value));
--> out declare Old : List; begin while L /= null loop Old := L; L := Old.Next; Free (Old); end loop; end;
--> out end Main;
with Ada.Unchecked_Deallocation;
package Work is
type Cell; type List is access Cell;
type Cell is record Value : Integer; Next : List; end record;
procedure Free is new Ada.Unchecked_Deallocation (Cell, List);
procedure P1 (L : in out List);
end Work;
package body Work is
procedure P1 (L : in out List) is begin L := new Cell'(1, L); end P1;
end Work;
with Work; use Work; with Ada.Text_IO; use Ada.Text_IO;
procedure Main is L : List;
begin
P1 (L);
Put_Line (Integer'Image (L.Value));
declare Old : List; begin while L /= null loop Old := L; L := Old.Next; Free (Old); end loop; end;
end Main;
