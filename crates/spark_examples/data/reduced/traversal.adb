--  Traversal functions, with what `spark` reads alone.
--> spark check traversal.adb
--> status 0
--> out accepted
with Ada.Text_IO;
package Dict with SPARK_Mode is
   type Node;
   type Map is access Node;
   type Node is record
      Key   : Integer;
      Value : Integer;
      Next  : Map;
   end record;
   function Find (M : access constant Node; Key : Integer) return access constant Node;
   function Reference (M : access Node; Key : Integer) return access Node;
   function Last (M : access Node) return access Node;
   procedure Put (M : in out Map; Key, Value : Integer);
end Dict;
package body Dict with SPARK_Mode is
   function Last (M : access Node) return access Node is
   begin
      if M = null or else M.Next = null then
         return M;
      else
         return Last (M.Next);
      end if;
   end Last;

   function Find (M : access constant Node; Key : Integer) return access constant Node is
      C : access constant Node := M;
   begin
      while C /= null and then C.Key /= Key loop
         C := C.Next;
      end loop;
      return C;
   end Find;

   function Reference (M : access Node; Key : Integer) return access Node is
   begin
      if M.Key = Key then
         return M;
      elsif M.Next = null then
         return null;
      else
         return Reference (M.Next, Key);
      end if;
   end Reference;

   procedure Put (M : in out Map; Key, Value : Integer) is
   begin
      if M /= null then
         declare
            R : access Node := Reference (M, Key);
         begin
            if R /= null then
               R.Value := Value;
               return;
            end if;
         end;
      end if;
      M := new Node'(Key, Value, M);
   end Put;
end Dict;
with Ada.Text_IO;
with Dict; use Dict;
procedure Main is
   M : Map;
begin
   Put (M, 1, 10);
   Put (M, 2, 20);
   Put (M, 1, 11);
   declare
      F : access constant Node := Find (M, 1);
   begin
      if F /= null then
         Ada.Text_IO.Put_Line (Integer'Image (F.Value));
      end if;
   end;
   declare
      R : access Node := Last (M);
   begin
      R.Value := 99;
   end;
end Main;
