--  V1: a function may read a package object.
--> spark check V1_function_that_reads.adb
--> status 0
--> out accepted
package Counters is
   Count : Integer := 0;
   procedure Step;
   function Next return Integer;
end Counters;
package body Counters is
   procedure Step is
   begin
      Count := Count + 1;
   end Step;
   function Next return Integer is
   begin
      return Count + 1;
   end Next;
end Counters;
