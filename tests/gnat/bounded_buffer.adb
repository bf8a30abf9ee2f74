--  SPDX-License-Identifier: MIT
--  A buffer of three places between a producer and two consumers, whose sums are added by the main program.
with Ada.Text_IO; use Ada.Text_IO;

procedure Bounded_Buffer is
   Last : constant := 200;

   task Buffer is
      entry Put (Item : Integer);
      entry Get (Item : out Integer);
   end Buffer;

   task body Buffer is
      Items       : array (0 .. 2) of Integer;
      First, Size : Natural := 0;
   begin
      loop
         select
            when Size < Items'Length =>
               accept Put (Item : Integer) do
                  Items ((First + Size) mod Items'Length) := Item;
               end Put;
               Size := Size + 1;
         or
            when Size > 0 =>
               accept Get (Item : out Integer) do
                  Item := Items (First);
               end Get;
               First := (First + 1) mod Items'Length;
               Size := Size - 1;
         or
            terminate;
         end select;
      end loop;
   end Buffer;

   task type Consumer is
      entry Report (Sum : out Integer);
   end Consumer;

   task body Consumer is
      Item     : Integer;
      In_Order : Boolean := True;
      Total    : Integer := 0;
      Previous : Integer := 0;
   begin
      loop
         Buffer.Get (Item);
         exit when Item = 0;
         In_Order := In_Order and Item > Previous;
         Previous := Item;
         Total := Total + Item;
      end loop;
      accept Report (Sum : out Integer) do
         Sum := (if In_Order then Total else -1);
      end Report;
   end Consumer;

   Consumers  : array (1 .. 2) of Consumer;
   One, Other : Integer;
begin
   for Item in 1 .. Last loop
      Buffer.Put (Item);
   end loop;
   Buffer.Put (0);
   Buffer.Put (0);
   Consumers (1).Report (One);
   Consumers (2).Report (Other);
   Put_Line ("the sum is" & Integer'Image (One + Other));
end Bounded_Buffer;
