--  P3: no generic is declared.
--> spark check P3_generic.adb
--> status 2
--> err P3_generic.adb:5:1: P3 construct left out
generic
   type T is private;
package Boxes is
end Boxes;
