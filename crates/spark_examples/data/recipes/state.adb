--  State in the body of a package: an access object there, which each call leaves with a value.
--> spark check state.adb
--> status 0
--> out accepted
package Log is
   procedure Add (Code : Natural);
   function Count return Natural;
   procedure Flush;
end Log;
with Ada.Text_IO;
with Ada.Unchecked_Deallocation;
package body Log is
   type Entry_Cell;
   type Entries is access Entry_Cell;
   type Entry_Cell is record
      Code : Natural;
      Rest : Entries;
   end record;
   procedure Free is new Ada.Unchecked_Deallocation (Entry_Cell, Entries);

   Kept : Entries;

   procedure Add (Code : Natural) is
   begin
      Kept := new Entry_Cell'(Code, Kept);
   end Add;

   function Count return Natural is
      Found : Natural := 0;
      This  : access constant Entry_Cell := Kept;
   begin
      while This /= null loop
         Found := Found + 1;
         This := This.Rest;
      end loop;
      return Found;
   end Count;

   procedure Flush is
      First : Entries;
   begin
      while Kept /= null loop
         First := Kept;
         Kept := First.Rest;
         Ada.Text_IO.Put_Line (Natural'Image (First.Code));
         Free (First);
      end loop;
   end Flush;
end Log;
with Ada.Text_IO;
with Log;
procedure Main is
begin
   Log.Add (7);
   Log.Add (8);
   Ada.Text_IO.Put_Line (Natural'Image (Log.Count));
   Log.Flush;
end Main;
