--  V1: a function changes a package object, so the order of two calls in one expression matters.
--> spark check V1_order_of_evaluation.adb
--> status 1
--> err V1_order_of_evaluation.adb:12:7: V1 Counters.Count: constant view
package Counters is
   Count : Integer := 0;
   function Next return Integer;
end Counters;
package body Counters is
   function Next return Integer is
   begin
      Count := Count + 1;
      return Count;
   end Next;
end Counters;
with Ada.Text_IO;
with Counters; use Counters;
procedure Main is
begin
   Ada.Text_IO.Put_Line (Integer'Image (10 * Next + Next));
end Main;
