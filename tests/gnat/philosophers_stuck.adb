--  SPDX-License-Identifier: MIT
--  Each of two philosophers has a fork and wants the other, so nobody goes on. The program says so and ends.
with Ada.Text_IO; use Ada.Text_IO;

procedure Philosophers_Stuck is
   task type Fork is
      entry Take;
      entry Put_Down;
   end Fork;

   task body Fork is
   begin
      loop
         select
            accept Take;
         or
            terminate;
         end select;
         accept Put_Down;
      end loop;
   end Fork;

   Left, Right : Fork;

   task Table is
      entry Sit;
   end Table;

   task body Table is
   begin
      for Seat in 1 .. 2 loop
         accept Sit;
      end loop;
      Put_Line ("each has a fork");
   end Table;

   task Plato;
   task Kant;

   task body Plato is
   begin
      Left.Take;
      Table.Sit;
      delay 0.05;
      Right.Take;
      Put_Line ("never printed");
   end Plato;

   task body Kant is
   begin
      Right.Take;
      Table.Sit;
      delay 0.1;
      Left.Take;
      Put_Line ("never printed");
   end Kant;
begin
   null;
end Philosophers_Stuck;
