--  Blocks in numbered slots, with what `spark` reads alone.
--> spark check arena.adb
--> status 0
--> out accepted
with Ada.Unchecked_Deallocation;
package Arenas with SPARK_Mode is
   Capacity : constant := 8;
   subtype Slot is Integer range 0 .. Capacity;
   subtype Used_Slot is Slot range 1 .. Slot'Last;
   type Block is array (1 .. 16) of Integer;
   type Block_Ptr is access Block;
   type Slots is array (Used_Slot) of Block_Ptr;
   type Arena is record
      Items : Slots;
      Top   : Slot;
   end record;
   procedure Allocate (A : in out Arena; S : out Slot);
   procedure Release (A : in out Arena; S : Used_Slot);
   procedure Release_All (A : in out Arena);
   function Free_Slots (A : Arena) return Natural;
   procedure Write (A : in out Arena; S : Used_Slot; I : Positive; V : Integer);
end Arenas;
package body Arenas with SPARK_Mode is
   procedure Free is new Ada.Unchecked_Deallocation (Block, Block_Ptr);

   procedure Allocate (A : in out Arena; S : out Slot) is
   begin
      for I in Used_Slot loop
         if A.Items (I) = null then
            A.Items (I) := new Block'(others => 0);
            if A.Top < I then
               A.Top := I;
            end if;
            S := I;
            return;
         end if;
      end loop;
      S := 0;
   end Allocate;

   procedure Release (A : in out Arena; S : Used_Slot) is
   begin
      Free (A.Items (S));
   end Release;

   procedure Release_All (A : in out Arena) is
   begin
      for I in A.Items'Range loop
         Free (A.Items (I));
      end loop;
      A.Top := 0;
   end Release_All;

   function Free_Slots (A : Arena) return Natural is
      N : Natural := 0;
   begin
      for I in A.Items'Range loop
         if A.Items (I) = null then
            N := N + 1;
         end if;
      end loop;
      return N;
   end Free_Slots;

   procedure Write (A : in out Arena; S : Used_Slot; I : Positive; V : Integer) is
   begin
      A.Items (S)(I) := V;
   end Write;
end Arenas;
with Ada.Text_IO; use Ada.Text_IO;
with Arenas; use Arenas;
procedure Main with SPARK_Mode is
   A       : Arena;
   S1, S2  : Slot;
begin
   Allocate (A, S1);
   Allocate (A, S2);
   if S1 /= 0 and S2 /= 0 then
      Write (A, S1, 3, 33);
      Release (A, S2);
   end if;
   Put_Line (Natural'Image (Free_Slots (A)));
   Release_All (A);
end Main;
