--  N4: the body of a package follows its specification.
--> spark check N4_body_first.adb
--> status 2
--> err N4_body_first.adb:5:14: N4 used before its declaration
package body Box is
end Box;
package Box is
   N : Integer;
end Box;
