--  A linked list, with what `spark` reads alone.
--> spark check linked_list.adb
--> status 0
--> out accepted
with Ada.Unchecked_Deallocation;
package Lists with SPARK_Mode is
   type Node;
   type List is access Node;
   type Node is record
      Value : Integer;
      Next  : List;
   end record;

   function Is_Empty (L : List) return Boolean;

   function Length (L : List) return Natural;

   procedure Prepend (L : in out List; Value : Integer);

   procedure Append (L : in out List; Value : Integer);

   function Contains (L : List; Value : Integer) return Boolean;

   procedure Remove (L : in out List; Value : Integer);

   procedure Clear (L : in out List);
end Lists;

package body Lists with SPARK_Mode is
   function Is_Empty (L : List) return Boolean is
   begin
      return L = null;
   end Is_Empty;

   procedure Free is new Ada.Unchecked_Deallocation (Node, List);

   function Length (L : List) return Natural is
      C     : access constant Node := L;
      Count : Natural := 0;
   begin
      while C /= null loop
         Count := Count + 1;
         C := C.Next;
      end loop;
      return Count;
   end Length;

   procedure Prepend (L : in out List; Value : Integer) is
   begin
      L := new Node'(Value => Value, Next => L);
   end Prepend;

   procedure Append (L : in out List; Value : Integer) is
   begin
      if L = null then
         L := new Node'(Value, null);
      else
         declare
            Cursor : access Node := L;
         begin
            while Cursor.Next /= null loop
               Cursor := Cursor.Next;
            end loop;
            Cursor.Next := new Node'(Value, null);
         end;
      end if;
   end Append;

   function Contains (L : List; Value : Integer) return Boolean is
      C : access constant Node := L;
   begin
      while C /= null loop
         if C.Value = Value then
            return True;
         end if;
         C := C.Next;
      end loop;
      return False;
   end Contains;

   procedure Remove (L : in out List; Value : Integer) is
      Old : List;
   begin
      if L = null then
         return;
      end if;
      if L.Value = Value then
         Old := L;
         L := Old.Next;
         Free (Old);
      else
         Remove (L.Next, Value);
      end if;
   end Remove;

   procedure Clear (L : in out List) is
      Old : List;
   begin
      while L /= null loop
         Old := L;
         L := Old.Next;
         Free (Old);
      end loop;
   end Clear;
end Lists;

with Ada.Text_IO; use Ada.Text_IO;
with Lists; use Lists;
procedure Main with SPARK_Mode is
   L : List;
begin
   for I in 1 .. 5 loop
      Append (L, I * I);
   end loop;
   Remove (L, 9);
   Put_Line ("length" & Natural'Image (Length (L)));
   if Contains (L, 16) then
      Put_Line ("has 16");
   end if;
   Clear (L);
end Main;
