--  SPDX-License-Identifier: MIT
--  A protected object keeps a value that two tasks read, and then write: an update may be lost. A third task uses
--  another object.

with Ada.Text_IO;

procedure Shared_Object is
   protected type Store is
      function Value return Integer;
      procedure Set (To : Integer);
   private
      Kept : Integer := 0;
   end Store;

   protected body Store is
      function Value return Integer is (Kept);

      procedure Set (To : Integer) is
      begin
         Kept := To;
      end Set;
   end Store;

   Shared, Own : Store;
begin
   declare
      task type Adder;
      Adders : array (1 .. 2) of Adder;
      task Loner;

      task body Adder is
         Seen : Integer;
      begin
         Seen := Shared.Value;
         delay 0.0;
         Shared.Set (Seen + 1);
      end Adder;

      task body Loner is
      begin
         Own.Set (1);
         delay 0.0;
         Own.Set (Own.Value + 1);
      end Loner;
   begin
      null;
   end;
   Ada.Text_IO.Put_Line ("updates:" & Integer'Image (Shared.Value) & Integer'Image (Own.Value));
end Shared_Object;
