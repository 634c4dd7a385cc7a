--  The same use without the mistakes: the job is looked at and then freed, and each queue has one name.
--> spark check queues.ads queues.adb mended.adb
--> status 0
--> out accepted
with Ada.Text_IO; use Ada.Text_IO;
with Queues; use Queues;
procedure Mended is
   Todo, Urgent : Queue;
begin
   Push (Todo, 3);
   Push (Todo, 4);
   if Total (Todo) > 5 then
      Urgent := Todo;
      Todo := null;
   end if;
   if Urgent /= null then
      declare
         First : access constant Job := Urgent;
      begin
         Put_Line (Natural'Image (First.Cost));
      end;
      Drop (Urgent);
      Put_Line (Natural'Image (Total (Todo)));
   end if;
end Mended;
