--  O9: each way out of a procedure is looked at, and a return before the value is given back is one.
--> spark check O9_early_return.adb
--> status 1
--> err O9_early_return.adb:19:10: O9 L: moved
package Lists is
   type Cell;
   type List is access Cell;
   type Cell is record
      Value : Integer;
      Next  : List;
   end record;
   procedure Double (L : in out List);
end Lists;
package body Lists is
   procedure Double (L : in out List) is
      Mine : List := L;
   begin
      if Mine = null then
         return;
      end if;
      Mine.Value := 2 * Mine.Value;
      L := Mine;
   end Double;
end Lists;
