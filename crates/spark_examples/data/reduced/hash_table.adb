--  A hash table with chains, with what `spark` reads alone.
--> spark check hash_table.adb
--> status 0
--> out accepted
with Ada.Unchecked_Deallocation;
package Tables with SPARK_Mode is
   Size : constant := 16;
   subtype Bucket_Index is Natural range 0 .. Size - 1;
   type Entry_Node;
   type Chain is access Entry_Node;
   type Entry_Node is record
      Key   : Natural;
      Value : Integer;
      Next  : Chain;
   end record;
   type Buckets is array (Bucket_Index) of Chain;
   type Table is record
      B     : Buckets;
      Count : Natural;
   end record;

   function Hash (Key : Natural) return Bucket_Index;
   procedure Put (T : in out Table; Key : Natural; Value : Integer);
   procedure Get (T : Table; Key : Natural; Value : out Integer; Found : out Boolean);
   procedure Remove (T : in out Table; Key : Natural);
   procedure Clear (T : in out Table);
end Tables;

package body Tables with SPARK_Mode is
   function Hash (Key : Natural) return Bucket_Index is
   begin
      return Key mod Size;
   end Hash;
   procedure Free is new Ada.Unchecked_Deallocation (Entry_Node, Chain);

   procedure Push (C : in out Chain; Key : Natural; Value : Integer) is
   begin
      C := new Entry_Node'(Key, Value, C);
   end Push;

   procedure Put (T : in out Table; Key : Natural; Value : Integer) is
      H : constant Bucket_Index := Hash (Key);
   begin
      declare
         C : access Entry_Node := T.B (H);
      begin
         while C /= null loop
            if C.Key = Key then
               C.Value := Value;
               return;
            end if;
            C := C.Next;
         end loop;
      end;
      Push (T.B (H), Key, Value);
      T.Count := T.Count + 1;
   end Put;

   procedure Get (T : Table; Key : Natural; Value : out Integer; Found : out Boolean) is
      C : access constant Entry_Node := T.B (Hash (Key));
   begin
      Found := False;
      Value := 0;
      while C /= null loop
         if C.Key = Key then
            Value := C.Value;
            Found := True;
            exit;
         end if;
         C := C.Next;
      end loop;
   end Get;

   procedure Remove_From (C : in out Chain; Key : Natural; Removed : out Boolean) is
      Old : Chain;
   begin
      Removed := False;
      if C /= null then
         if C.Key = Key then
            Old := C;
            C := Old.Next;
            Free (Old);
            Removed := True;
         else
            Remove_From (C.Next, Key, Removed);
         end if;
      end if;
   end Remove_From;

   procedure Remove (T : in out Table; Key : Natural) is
      Removed : Boolean;
   begin
      Remove_From (T.B (Hash (Key)), Key, Removed);
      if Removed then
         T.Count := T.Count - 1;
      end if;
   end Remove;

   procedure Clear_Chain (C : in out Chain) is
      Old : Chain;
   begin
      while C /= null loop
         Old := C;
         C := Old.Next;
         Free (Old);
      end loop;
   end Clear_Chain;

   procedure Clear (T : in out Table) is
   begin
      for I in T.B'Range loop
         Clear_Chain (T.B (I));
      end loop;
      T.Count := 0;
   end Clear;
end Tables;

with Ada.Text_IO;
with Tables; use Tables;
procedure Main is
   T     : Table;
   V     : Integer;
   Found : Boolean;
begin
   for I in 1 .. 40 loop
      Put (T, I, I * I);
   end loop;
   Remove (T, 17);
   Get (T, 33, V, Found);
   if Found then
      Ada.Text_IO.Put_Line ("33 =>" & Integer'Image (V));
   end if;
   Clear (T);
end Main;
