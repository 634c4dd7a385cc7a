--  State in the body of a package, with what `spark` reads alone.
--> spark check private_state.adb
--> status 0
--> out accepted
package Logger with
  SPARK_Mode
is
   procedure Log (Code : Natural);
   function Pending return Natural;
   procedure Flush;
end Logger;
with Ada.Text_IO;
with Ada.Unchecked_Deallocation;
package body Logger with
  SPARK_Mode
is
   type Message;
   type Message_List is access Message;
   type Message is record
      Code : Natural;
      Next : Message_List;
   end record;
   procedure Free is new Ada.Unchecked_Deallocation (Message, Message_List);

   Head  : Message_List;
   Count : Natural := 0;

   procedure Log (Code : Natural) is
   begin
      Head := new Message'(Code, Head);
      Count := Count + 1;
   end Log;

   function Pending return Natural is
   begin
      return Count;
   end Pending;

   procedure Show (M : Message) is
   begin
      Ada.Text_IO.Put_Line ("code" & Natural'Image (M.Code));
   end Show;

   procedure Flush is
      First : Message_List;
   begin
      while Head /= null loop
         First := Head;
         Show (First.all);
         Head := First.Next;
         Free (First);
      end loop;
      Count := 0;
   end Flush;
end Logger;
with Logger;
procedure Main with SPARK_Mode is
begin
   Logger.Log (7);
   Logger.Log (8);
   if Logger.Pending > 1 then
      Logger.Flush;
   end if;
end Main;
