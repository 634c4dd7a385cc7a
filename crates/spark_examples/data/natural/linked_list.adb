--  A linked list, as it is written in SPARK.
--> spark check linked_list.adb
--> status 2
--> err linked_list.adb:10:23: P1 syntax
with Ada.Unchecked_Deallocation;
package Lists with SPARK_Mode is
   type Node;
   type List is access Node;
   type Node is record
      Value : Integer := 0;
      Next  : List := null;
   end record;

   function Is_Empty (L : List) return Boolean is (L = null);

   function Length (L : access constant Node) return Natural;

   procedure Prepend (L : in out List; Value : Integer)
     with Post => not Is_Empty (L);

   procedure Append (L : in out List; Value : Integer);

   function Contains (L : access constant Node; Value : Integer) return Boolean;

   procedure Remove (L : in out List; Value : Integer);

   procedure Clear (L : in out List)
     with Post => Is_Empty (L);
end Lists;

package body Lists with SPARK_Mode is
   procedure Free is new Ada.Unchecked_Deallocation (Node, List);

   function Length (L : access constant Node) return Natural is
      C     : access constant Node := L;
      Count : Natural := 0;
   begin
      while C /= null loop
         pragma Loop_Invariant (Count >= 0);
         Count := Count + 1;
         C := C.Next;
      end loop;
      return Count;
   end Length;

   procedure Prepend (L : in out List; Value : Integer) is
   begin
      L := new Node'(Value => Value, Next => L);
   end Prepend;

   procedure Append (L : in out List; Value : Integer) is
   begin
      if L = null then
         L := new Node'(Value, null);
      else
         declare
            Cursor : access Node := L;
         begin
            while Cursor.Next /= null loop
               Cursor := Cursor.Next;
            end loop;
            Cursor.Next := new Node'(Value, null);
         end;
      end if;
   end Append;

   function Contains (L : access constant Node; Value : Integer) return Boolean is
      C : access constant Node := L;
   begin
      while C /= null loop
         if C.Value = Value then
            return True;
         end if;
         C := C.Next;
      end loop;
      return False;
   end Contains;

   procedure Remove (L : in out List; Value : Integer) is
      Old : List;
   begin
      if L = null then
         return;
      end if;
      if L.Value = Value then
         Old := L;
         L := Old.Next;
         Free (Old);
      else
         Remove (L.Next, Value);
      end if;
   end Remove;

   procedure Clear (L : in out List) is
      Old : List;
   begin
      while L /= null loop
         Old := L;
         L := L.Next;
         Free (Old);
      end loop;
   end Clear;
end Lists;

with Ada.Text_IO; use Ada.Text_IO;
with Lists; use Lists;
procedure Main with SPARK_Mode is
   L : List;
begin
   for I in 1 .. 5 loop
      Append (L, I * I);
   end loop;
   Remove (L, 9);
   Put_Line ("length" & Natural'Image (Length (L)));
   if Contains (L, 16) then
      Put_Line ("has 16");
   end if;
   Clear (L);
end Main;
