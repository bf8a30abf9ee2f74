--  SPDX-License-Identifier: MIT
--  Two philosophers and two forks, of which each takes the one on its left first.

procedure Dining2 is
   type Seat is mod 2;
   task type Fork is
      entry Take;
      entry Put;
   end Fork;
   task type Philosopher is
      entry Sit (At_Place : Seat);
   end Philosopher;
   Forks  : array (Seat) of Fork;
   Guests : array (Seat) of Philosopher;

   task body Fork is
   begin
      loop
         select
            accept Take;
            accept Put;
         or
            terminate;
         end select;
      end loop;
   end Fork;

   task body Philosopher is
      Me : Seat;
   begin
      accept Sit (At_Place : Seat) do
         Me := At_Place;
      end Sit;
      Forks (Me).Take;
      Forks (Me + 1).Take;
      Forks (Me).Put;
      Forks (Me + 1).Put;
   end Philosopher;
begin
   for S in Seat loop
      Guests (S).Sit (S);
   end loop;
end Dining2;
