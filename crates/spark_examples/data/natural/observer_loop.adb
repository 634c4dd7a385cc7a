--  Sums along a list, as it is written in SPARK.
--> spark check observer_loop.adb
--> status 2
--> err observer_loop.adb:12:23: P1 syntax
with Ada.Text_IO;
package Sensors with SPARK_Mode is
   type Kind is (Heat, Light, Sound);
   type Reading;
   type Readings is access Reading;
   type Reading is record
      K     : Kind;
      Value : Integer range 0 .. 1000;
      Next  : Readings;
   end record;
   procedure Add (R : in out Readings; K : Kind; Value : Integer);
   function Maximum (R : Readings; K : Kind) return Integer;
   function Count (R : Readings; K : Kind) return Natural;
   procedure Report (R : Readings);
end Sensors;
package body Sensors with SPARK_Mode is
   procedure Add (R : in out Readings; K : Kind; Value : Integer) is
   begin
      if Value in 0 .. 1000 then
         R := new Reading'(K => K, Value => Value, Next => R);
      end if;
   end Add;

   function Maximum (R : Readings; K : Kind) return Integer is
      Cur  : access constant Reading := R;
      Best : Integer := Integer'First;
   begin
      loop
         exit when Cur = null;
         if Cur.K = K then
            Best := Integer'Max (Best, Cur.Value);
         end if;
         Cur := Cur.Next;
      end loop;
      return Best;
   end Maximum;

   function Count (R : Readings; K : Kind) return Natural is
      Cur : access constant Reading := R;
   begin
      return N : Natural := 0 do
         while Cur /= null loop
            if Cur.K = K then
               N := N + 1;
            end if;
            Cur := Cur.Next;
         end loop;
      end return;
   end Count;

   procedure Report (R : Readings) is
   begin
      for K in Kind loop
         Ada.Text_IO.Put_Line
           (Kind'Image (K) & ":" & Natural'Image (Count (R, K)) & " max"
            & Integer'Image (Maximum (R, K)));
      end loop;
   end Report;
end Sensors;
with Sensors; use Sensors;
procedure Main is
   R : Readings;
begin
   Add (R, Heat, 20);
   Add (R, Light, 700);
   Add (R, Heat, 25);
   Report (R);
end Main;
