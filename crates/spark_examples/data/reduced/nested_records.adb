--  Records in records with access components, with what `spark` reads alone.
--> spark check nested_records.adb
--> status 0
--> out accepted
with Ada.Unchecked_Deallocation;
package Config with SPARK_Mode is
   type Level is (Debug, Info, Warning, Error);
   type Level_Ptr is access Level;
   type Int_Ptr is access Integer;
   type Limits is record
      Low, High : Int_Ptr;
   end record;
   type Channel is record
      Limit : Limits;
      Min   : Level_Ptr;
      Hits  : Natural;
   end record;
   type Channel_Ptr is access Channel;
   subtype Channel_Id is Integer range 1 .. 4;
   type Channel_Array is array (Channel_Id) of Channel_Ptr;
   type System is record
      Channels : Channel_Array;
      Default  : Channel;
   end record;
   procedure Init (S : out System);
   procedure Set_Low (S : in out System; Id : Channel_Id; Value : Integer);
   procedure Swap_Limits (S : in out System; A, B : Channel_Id);
   procedure Release (S : in out System);
end Config;
package body Config with SPARK_Mode is
   procedure Free is new Ada.Unchecked_Deallocation (Integer, Int_Ptr);
   procedure Free_Level is new Ada.Unchecked_Deallocation (Level, Level_Ptr);
   procedure Free_Channel is new Ada.Unchecked_Deallocation (Channel, Channel_Ptr);

   procedure Init (S : out System) is
   begin
      S := (Channels => (others => null),
            Default  => (Limit => (Low => new Integer'(0), High => new Integer'(100)),
                         Min   => new Level'(Info),
                         Hits  => 0));
   end Init;

   procedure Set_Low (S : in out System; Id : Channel_Id; Value : Integer) is
   begin
      if S.Channels (Id) = null then
         S.Channels (Id) := new Channel'(((null, null), null, 0));
      end if;
      if S.Channels (Id).Limit.Low = null then
         S.Channels (Id).Limit.Low := new Integer'(Value);
      else
         S.Channels (Id).Limit.Low.all := Value;
      end if;
   end Set_Low;

   procedure Exchange (X, Y : in out Limits) is
      Tmp : Limits := X;
   begin
      X := Y;
      Y := Tmp;
   end Exchange;

   procedure Swap_Limits (S : in out System; A, B : Channel_Id) is
      Tmp : Limits;
   begin
      if S.Channels (A) /= null and then S.Channels (B) /= null then
         Exchange (S.Channels (A).Limit, Tmp);
         Exchange (S.Channels (B).Limit, Tmp);
         Exchange (S.Channels (A).Limit, Tmp);
      end if;
   end Swap_Limits;

   procedure Release_Channel (C : in out Channel) is
   begin
      Free (C.Limit.Low);
      Free (C.Limit.High);
      Free_Level (C.Min);
   end Release_Channel;

   procedure Release (S : in out System) is
   begin
      for I in S.Channels'Range loop
         if S.Channels (I) /= null then
            Release_Channel (S.Channels (I).all);
            Free_Channel (S.Channels (I));
         end if;
      end loop;
      Release_Channel (S.Default);
   end Release;
end Config;
with Config; use Config;
procedure Main is
   S : System;
begin
   Init (S);
   Set_Low (S, 1, 5);
   Set_Low (S, 2, 7);
   Swap_Limits (S, 1, 2);
   Release (S);
end Main;
