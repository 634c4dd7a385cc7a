--  L1: a byte that begins no token is refused.
--> spark check L1_question_mark.adb
--> status 2
--> err L1_question_mark.adb:9:11: L1 bad byte
with Ada.Unchecked_Deallocation;
procedure Main is
   N : Integer;
begin
   N := 1 ?;
end Main;
