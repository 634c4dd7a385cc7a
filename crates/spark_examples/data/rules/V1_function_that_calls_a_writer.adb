--  V1: a function calls no procedure that writes a package object.
--> spark check V1_function_that_calls_a_writer.adb
--> status 1
--> err V1_function_that_calls_a_writer.adb:17:7: V1 Counters.Count: constant view
package Counters is
   Count : Integer := 0;
   procedure Step;
   function Next return Integer;
end Counters;
package body Counters is
   procedure Step is
   begin
      Count := Count + 1;
   end Step;
   function Next return Integer is
   begin
      Step;
      return Count;
   end Next;
end Counters;
