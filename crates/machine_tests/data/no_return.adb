package P is
   function F (N : Integer) return Integer;
end P;
package body P is
   function F (N : Integer) return Integer is
   begin
      if N > 0 then
         return N;
      end if;
   end F;
end P;
with P; use P;
procedure Main is
   N : Integer := F (1);
begin
   N := F (0);
end Main;
