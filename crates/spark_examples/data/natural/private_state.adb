--  State in the body of a package, as it is written in SPARK.
--> spark check private_state.adb
--> status 2
--> err private_state.adb:6:13: P1 syntax
package Logger with
  SPARK_Mode,
  Abstract_State => State,
  Initializes    => State
is
   procedure Log (Code : Natural) with
     Global => (In_Out => State);
   function Pending return Natural with
     Global => (Input => State);
   procedure Flush with
     Global => (In_Out => State);
end Logger;
with Ada.Text_IO;
with Ada.Unchecked_Deallocation;
package body Logger with
  SPARK_Mode,
  Refined_State => (State => (Head, Count))
is
   type Message;
   type Message_List is access Message;
   type Message is record
      Code : Natural;
      Next : Message_List;
   end record;
   procedure Free is new Ada.Unchecked_Deallocation (Message, Message_List);

   Head  : Message_List;
   Count : Natural := 0;

   procedure Log (Code : Natural) is
   begin
      Head := new Message'(Code, Head);
      Count := Count + 1;
   end Log;

   function Pending return Natural is (Count);

   procedure Flush is
      procedure Show (M : Message) is
      begin
         Ada.Text_IO.Put_Line ("code" & Natural'Image (M.Code));
      end Show;
      First : Message_List;
   begin
      while Head /= null loop
         First := Head;
         Head := First.Next;
         Show (First.all);
         Free (First);
      end loop;
      Count := 0;
   end Flush;
begin
   Count := 0;
end Logger;
with Logger;
procedure Main with SPARK_Mode is
begin
   Logger.Log (7);
   Logger.Log (8);
   if Logger.Pending > 1 then
      Logger.Flush;
   end if;
end Main;
