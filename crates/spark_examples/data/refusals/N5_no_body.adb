--  N5: a procedure that is declared in a package has its body.
--> spark check N5_no_body.adb
--> status 2
--> err N5_no_body.adb:6:14: N5 body missing
package Box is
   procedure Clear;
end Box;
