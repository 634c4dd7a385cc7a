--  K8: the initial value of a package object names no object that may own another. Ada allows it.
--> spark check K8_owning_name.adb
--> status 2
--> err K8_owning_name.adb:8:21: K8 package value
package Store is
   type Link is access Integer;
   First : Link := new Integer'(1);
   Second : Link := First;
end Store;
