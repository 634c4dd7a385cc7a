with Ada.Unchecked_Deallocation;
package body Queues is
   procedure Free is new Ada.Unchecked_Deallocation (Job, Queue);

   procedure Push (Q : in out Queue; Cost : Natural) is
   begin
      Q := new Job'(Cost, Q);
   end Push;

   procedure Drop (Q : in out Queue) is
      First : Queue := Q;
   begin
      Q := First.Rest;
      Free (First);
   end Drop;

   function Total (Q : Queue) return Natural is
      Sum  : Natural := 0;
      This : access constant Job := Q;
   begin
      while This /= null loop
         Sum := Sum + This.Cost;
         This := This.Rest;
      end loop;
      return Sum;
   end Total;
end Queues;
