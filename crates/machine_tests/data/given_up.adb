procedure Main is
   type Cell;
   type List is access Cell;
   type Cell is record
      Next : List;
      Value : Positive;
   end record;
   X : List := new Cell'(null, 1);
   N : Integer := 0;
begin
   X := new Cell'(new Cell'(null, 3), N);
end Main;
