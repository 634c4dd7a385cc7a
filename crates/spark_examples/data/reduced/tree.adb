--  A search tree, with what `spark` reads alone.
--> spark check tree.adb
--> status 0
--> out accepted
with Ada.Unchecked_Deallocation;
package Trees with SPARK_Mode is
   type Node;
   type Tree is access Node;
   type Node is record
      Key         : Integer;
      Left, Right : Tree;
   end record;
   procedure Insert (T : in out Tree; Key : Integer);
   procedure Delete (T : in out Tree; Key : Integer; Found : out Boolean);
   procedure Free_All (T : in out Tree);
   function Height (T : Tree) return Natural;
   function Contains (T : Tree; Key : Integer) return Boolean;
end Trees;

package body Trees with SPARK_Mode is
   function Height (T : Tree) return Natural is
      Left, Right : Natural;
   begin
      if T = null then
         return 0;
      end if;
      Left := Height (T.Left);
      Right := Height (T.Right);
      if Left < Right then
         Left := Right;
      end if;
      return 1 + Left;
   end Height;
   procedure Free is new Ada.Unchecked_Deallocation (Node, Tree);

   procedure Insert (T : in out Tree; Key : Integer) is
   begin
      if T = null then
         T := new Node'(Key => Key, Left => null, Right => null);
      elsif Key < T.Key then
         Insert (T.Left, Key);
      elsif Key > T.Key then
         Insert (T.Right, Key);
      end if;
   end Insert;

   --  Takes the least node out of T.
   procedure Take_Min (T : in out Tree; Min : out Tree) is
   begin
      if T.Left = null then
         Min := T;
         T := Min.Right;
         Min.Right := null;
      else
         Take_Min (T.Left, Min);
      end if;
   end Take_Min;

   procedure Delete (T : in out Tree; Key : Integer; Found : out Boolean) is
      Old : Tree;
      Min : Tree;
   begin
      if T = null then
         Found := False;
      elsif Key < T.Key then
         Delete (T.Left, Key, Found);
      elsif Key > T.Key then
         Delete (T.Right, Key, Found);
      else
         Found := True;
         Old := T;
         if Old.Left = null then
            T := Old.Right;
         elsif Old.Right = null then
            T := Old.Left;
         else
            Take_Min (Old.Right, Min);
            Min.Left := Old.Left;
            Min.Right := Old.Right;
            T := Min;
         end if;
         Free (Old);
      end if;
   end Delete;

   procedure Free_All (T : in out Tree) is
   begin
      if T /= null then
         Free_All (T.Left);
         Free_All (T.Right);
         Free (T);
      end if;
   end Free_All;

   function Contains (T : Tree; Key : Integer) return Boolean is
      C : access constant Node := T;
   begin
      while C /= null loop
         if Key = C.Key then
            return True;
         end if;
         if Key < C.Key then
            C := C.Left;
         else
            C := C.Right;
         end if;
      end loop;
      return False;
   end Contains;
end Trees;

with Ada.Text_IO; use Ada.Text_IO;
with Trees; use Trees;
procedure Main is
   T     : Tree;
   Found : Boolean;
   type Key_Array is array (1 .. 6) of Integer;
   Keys : constant Key_Array := (5, 2, 8, 1, 9, 3);
begin
   for I in Keys'Range loop
      Insert (T, Keys (I));
   end loop;
   Delete (T, 5, Found);
   Put_Line (Boolean'Image (Found) & Integer'Image (Height (T)));
   Free_All (T);
end Main;
