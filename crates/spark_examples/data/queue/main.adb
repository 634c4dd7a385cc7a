--  Two mistakes in the use of a package: a job that is freed while it is looked at, and two names for one queue.
--> spark check queues.ads queues.adb main.adb
--> status 1
--> err main.adb:20:16: O10 Urgent: observed
--> err main.adb:23:39: O10 Todo: moved
with Ada.Text_IO; use Ada.Text_IO;
with Queues; use Queues;
procedure Main is
   Todo, Urgent : Queue;
begin
   Push (Todo, 3);
   Push (Todo, 4);
   if Total (Todo) > 5 then
      Urgent := Todo;
   end if;
   if Urgent /= null then
      declare
         First : access constant Job := Urgent;
      begin
         Drop (Urgent);
         Put_Line (Natural'Image (First.Cost));
      end;
      Put_Line (Natural'Image (Total (Todo)));
   end if;
end Main;
