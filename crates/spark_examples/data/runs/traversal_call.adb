--  A function gives a borrower of the last cell, and the caller changes that cell. At the end the
--  list is lost: the line names its first cell, which still owns the other one.
--> spark run traversal_call.adb
--> status 5
--> out  9
--> err traversal_call.adb:39:1: leak of cell 2
package Lists is
   type Cell;
   type List is access Cell;
   type Cell is record
      Value : Integer;
      Next  : List;
   end record;
   function Last (L : access Cell) return access Cell;
end Lists;

package body Lists is
   function Last (L : access Cell) return access Cell is
      B : access Cell := L;
   begin
      while B.Next /= null loop
         B := B.Next;
      end loop;
      return B;
   end Last;
end Lists;

with Ada.Text_IO; use Ada.Text_IO;
with Lists; use Lists;
procedure Main is
   L : List := new Cell'(1, new Cell'(2, null));
begin
   declare
      B : access Cell := Last (L);
   begin
      B.Value := 9;
   end;
   Put_Line (Integer'Image (L.Next.Value));
end Main;
