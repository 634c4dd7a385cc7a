--  P3: each body stands in its place.
--> spark check P3_separate.adb
--> status 2
--> err P3_separate.adb:5:19: P3 construct left out
procedure Main is separate;
