--  Without a main procedure there is nothing to run.
--> spark run no_main_procedure.adb
--> status 2
--> err no_main_procedure.adb:1:1: N5 body missing
package P is
   type Int_Ptr is access Integer;
end P;
