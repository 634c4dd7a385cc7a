--  K8: each package object begins with an object of its own.
--> spark check K8_package_objects.adb
--> status 0
--> out accepted
package Store is
   type Link is access Integer;
   First : Link := new Integer'(1);
   Second : Link := new Integer'(2);
end Store;
