--  O8: a procedure takes an element out through a borrower, and leaves null.
--> spark check O8_element_by_a_procedure.adb
--> status 0
--> out accepted
package Trees is
   type Node;
   type Tree is access Node;
   type Row is array (1 .. 2) of Tree;
   type Node is record
      Value    : Integer;
      Branches : Row;
   end record;
   procedure Take (E : in out Tree; To : out Tree);
end Trees;
package body Trees is
   procedure Take (E : in out Tree; To : out Tree) is
   begin
      To := E;
      E := null;
   end Take;
end Trees;
with Trees; use Trees;
procedure Main is
   T    : Tree := new Node'(1, (null, null));
   Mine : Tree;
begin
   declare
      B : access Node := T;
   begin
      Take (B.Branches (1), Mine);
   end;
end Main;
