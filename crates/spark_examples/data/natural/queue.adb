--  A queue, as it is written in SPARK.
--> spark check queue.adb
--> status 2
--> err queue.adb:11:11: P1 syntax
with Ada.Unchecked_Deallocation;
package Queues with SPARK_Mode is
   type Queue is private;
   Empty_Queue : constant Queue;
   procedure Enqueue (Q : in out Queue; Item : Integer);
   procedure Dequeue (Q : in out Queue; Item : out Integer)
     with Pre => not Is_Empty (Q);
   function Is_Empty (Q : Queue) return Boolean;
private
   type Cell;
   type Cell_Ptr is access Cell;
   type Cell is record
      Item : Integer;
      Next : Cell_Ptr;
   end record;
   type Queue is record
      Front : Cell_Ptr;
      Size  : Natural := 0;
   end record;
   Empty_Queue : constant Queue := (Front => null, Size => 0);
   function Is_Empty (Q : Queue) return Boolean is (Q.Size = 0);
end Queues;

package body Queues with SPARK_Mode is
   procedure Free is new Ada.Unchecked_Deallocation (Cell, Cell_Ptr);

   procedure Enqueue (Q : in out Queue; Item : Integer) is
      New_Cell : Cell_Ptr := new Cell'(Item => Item, others => <>);
   begin
      if Q.Front = null then
         Q.Front := New_Cell;
      else
         declare
            Last : access Cell := Q.Front;
         begin
            loop
               exit when Last.Next = null;
               Last := Last.Next;
            end loop;
            Last.Next := New_Cell;
         end;
      end if;
      Q.Size := Q.Size + 1;
   end Enqueue;

   procedure Dequeue (Q : in out Queue; Item : out Integer) is
      First : Cell_Ptr := Q.Front;
   begin
      Item := First.Item;
      Q.Front := First.Next;
      Q.Size := Q.Size - 1;
      Free (First);
   end Dequeue;
end Queues;

with Ada.Text_IO;
with Queues; use Queues;
procedure Main with SPARK_Mode is
   Q : Queue;
   N : Integer;
begin
   for I in 1 .. 3 loop
      Enqueue (Q, I);
   end loop;
   while not Is_Empty (Q) loop
      Dequeue (Q, N);
      Ada.Text_IO.Put_Line (N'Image);
   end loop;
end Main;
