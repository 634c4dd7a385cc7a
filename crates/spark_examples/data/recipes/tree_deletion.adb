--  A node of a search tree is deleted: the least node of its right side takes its place.
--> spark check tree_deletion.adb
--> status 0
--> out accepted
package Trees is
   type Node;
   type Tree is access Node;
   type Node is record
      Key         : Integer;
      Left, Right : Tree;
   end record;
   procedure Insert (T : in out Tree; Key : Integer);
   procedure Delete (T : in out Tree; Key : Integer);
end Trees;
with Ada.Unchecked_Deallocation;
package body Trees is
   procedure Free is new Ada.Unchecked_Deallocation (Node, Tree);

   procedure Insert (T : in out Tree; Key : Integer) is
   begin
      if T = null then
         T := new Node'(Key, null, null);
      elsif Key < T.Key then
         Insert (T.Left, Key);
      elsif Key > T.Key then
         Insert (T.Right, Key);
      end if;
   end Insert;

   --  Takes the least node out of a tree that has one.
   procedure Take_Least (T : in out Tree; Least : out Tree) is
   begin
      if T.Left = null then
         Least := T;
         T := Least.Right;
         Least.Right := null;
      else
         Take_Least (T.Left, Least);
      end if;
   end Take_Least;

   procedure Delete (T : in out Tree; Key : Integer) is
      Old, Least : Tree;
   begin
      if T = null then
         return;
      elsif Key < T.Key then
         Delete (T.Left, Key);
      elsif Key > T.Key then
         Delete (T.Right, Key);
      else
         Old := T;
         if Old.Right = null then
            T := Old.Left;
         else
            Take_Least (Old.Right, Least);
            Least.Left := Old.Left;
            Least.Right := Old.Right;
            T := Least;
         end if;
         Free (Old);
      end if;
   end Delete;
end Trees;
with Ada.Text_IO;
with Trees; use Trees;
procedure Main is
   T : Tree;
begin
   Insert (T, 2);
   Insert (T, 1);
   Insert (T, 4);
   Insert (T, 3);
   Delete (T, 2);
   Ada.Text_IO.Put_Line (Integer'Image (T.Key) & Integer'Image (T.Right.Key));
end Main;
