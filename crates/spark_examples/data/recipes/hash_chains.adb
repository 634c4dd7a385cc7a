--  Chains in an array: a procedure takes a chain as `in out`, an observer looks for a key.
--> spark check hash_chains.adb
--> status 0
--> out accepted
package Tables is
   subtype Bucket is Natural range 0 .. 15;
   type Pair;
   type Chain is access Pair;
   type Pair is record
      Key   : Natural;
      Value : Integer;
      Rest  : Chain;
   end record;
   type Table is array (Bucket) of Chain;
   procedure Put (T : in out Table; Key : Natural; Value : Integer);
   procedure Get (T : Table; Key : Natural; Value : out Integer; Found : out Boolean);
end Tables;
package body Tables is
   procedure Push (C : in out Chain; Key : Natural; Value : Integer) is
   begin
      C := new Pair'(Key, Value, C);
   end Push;

   procedure Put (T : in out Table; Key : Natural; Value : Integer) is
   begin
      Push (T (Key mod 16), Key, Value);
   end Put;

   procedure Get (T : Table; Key : Natural; Value : out Integer; Found : out Boolean) is
      This : access constant Pair := T (Key mod 16);
   begin
      Value := 0;
      while This /= null and then This.Key /= Key loop
         This := This.Rest;
      end loop;
      Found := This /= null;
      if This /= null then
         Value := This.Value;
      end if;
   end Get;
end Tables;
with Ada.Text_IO;
with Tables; use Tables;
procedure Main is
   T     : Table := (others => null);
   Value : Integer;
   Found : Boolean;
begin
   Put (T, 1, 10);
   Put (T, 17, 20);
   Get (T, 1, Value, Found);
   if Found then
      Ada.Text_IO.Put_Line (Integer'Image (Value));
   end if;
end Main;
