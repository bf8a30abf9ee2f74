--  SPDX-License-Identifier: MIT
--  The last philosopher takes the forks in the other order, so all of them dine.
with Ada.Text_IO; use Ada.Text_IO;

procedure Philosophers_Mended is
   task type Fork is
      entry Take;
      entry Put_Down;
   end Fork;

   task body Fork is
   begin
      loop
         select
            accept Take;
         or
            terminate;
         end select;
         accept Put_Down;
      end loop;
   end Fork;

   Left, Middle, Right : Fork;

   task Plato;
   task Kant;
   task Hume;

   Dinners : constant := 50;

   procedure Dine (First, Second : in out Fork);

   procedure Dine (First, Second : in out Fork) is
   begin
      for Dinner in 1 .. Dinners loop
         First.Take;
         Second.Take;
         Second.Put_Down;
         First.Put_Down;
      end loop;
   end Dine;

   task body Plato is
   begin
      Dine (Left, Middle);
   end Plato;

   task body Kant is
   begin
      Dine (Middle, Right);
   end Kant;

   task body Hume is
   begin
      Dine (Left, Right);
   end Hume;
begin
   while not (Plato'Terminated and Kant'Terminated and Hume'Terminated) loop
      delay 0.001;
   end loop;
   Put_Line ("all have dined");
end Philosophers_Mended;
