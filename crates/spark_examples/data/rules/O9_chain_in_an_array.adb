--  O9: to put an element into a new object and that back into the element leaves some element moved.
--> spark check O9_chain_in_an_array.adb
--> status 1
--> err O9_chain_in_an_array.adb:19:4: O9 T(?): moved
package Tables is
   type Pair;
   type Chain is access Pair;
   type Pair is record
      Key  : Natural;
      Rest : Chain;
   end record;
   type Table is array (0 .. 15) of Chain;
   procedure Put (T : in out Table; Key : Natural);
end Tables;
package body Tables is
   procedure Put (T : in out Table; Key : Natural) is
   begin
      T (Key mod 16) := new Pair'(Key, T (Key mod 16));
   end Put;
end Tables;
