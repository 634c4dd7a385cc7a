--  O9: the return stands where nothing is moved.
--> spark check O9_return_before_the_move.adb
--> status 0
--> out accepted
package Lists is
   type Cell;
   type List is access Cell;
   type Cell is record
      Value : Integer;
      Next  : List;
   end record;
   procedure Double (L : in out List);
end Lists;
package body Lists is
   procedure Double (L : in out List) is
      Mine : List;
   begin
      if L = null then
         return;
      end if;
      Mine := L;
      Mine.Value := 2 * Mine.Value;
      L := Mine;
   end Double;
end Lists;
