--  Traversal functions, as it is written in SPARK.
--> spark check traversal.adb
--> status 2
--> err traversal.adb:11:15: P3 construct left out
with Ada.Text_IO;
package Dict with SPARK_Mode is
   type Node;
   type Map is access Node;
   type Node is record
      Key   : Integer;
      Value : aliased Integer;
      Next  : Map;
   end record;
   function Find (M : access constant Node; Key : Integer) return access constant Node;
   function Reference (M : not null access Node; Key : Integer) return access Node;
   function Last (M : access Node) return access Node is
     (if M = null or else M.Next = null then M else Last (M.Next));
   procedure Put (M : in out Map; Key, Value : Integer);
end Dict;
package body Dict with SPARK_Mode is
   function Find (M : access constant Node; Key : Integer) return access constant Node is
      C : access constant Node := M;
   begin
      while C /= null and then C.Key /= Key loop
         C := C.Next;
      end loop;
      return C;
   end Find;

   function Reference (M : not null access Node; Key : Integer) return access Node is
   begin
      if M.Key = Key then
         return M;
      elsif M.Next = null then
         return null;
      else
         return Reference (M.Next, Key);
      end if;
   end Reference;

   procedure Put (M : in out Map; Key, Value : Integer) is
   begin
      if M /= null then
         declare
            R : access Node := Reference (M, Key);
         begin
            if R /= null then
               R.Value := Value;
               return;
            end if;
         end;
      end if;
      M := new Node'(Key, Value, M);
   end Put;
end Dict;
with Ada.Text_IO;
with Dict; use Dict;
procedure Main is
   M : Map;
begin
   Put (M, 1, 10);
   Put (M, 2, 20);
   Put (M, 1, 11);
   declare
      F : constant access constant Node := Find (M, 1);
   begin
      if F /= null then
         Ada.Text_IO.Put_Line (F.Value'Image);
      end if;
   end;
   Last (M).Value := 99;
end Main;
