--  O1: letter case makes no difference, and a report shows an identifier as it is declared.
--> spark check O1_letter_case.adb
--> status 1
--> err O1_letter_case.adb:13:13: O1 Head.all: moved
WITH ada.UNCHECKED_Deallocation;
PROCEDURE main IS
   TYPE Int_Ptr IS ACCESS integer;
   Head, Tail : INT_PTR;
   Count      : INTEGER;
BEGIN
   HEAD := NEW Integer'(7);
   tail := head;
   count := hEAD.ALL;
END Main;
