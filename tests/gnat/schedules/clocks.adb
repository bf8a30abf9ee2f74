--  SPDX-License-Identifier: MIT
--  Clocks under a schedule that is chosen: time passes by delays alone, and each day is the same. A task has the name
--  that a tick has in lists of choices.

with Ada.Calendar;
with Ada.Real_Time;
with Ada.Text_IO;

procedure Clocks is
   use Ada.Calendar;
   use type Ada.Real_Time.Time;

   Day   : constant Time := Clock;
   Begun : constant Ada.Real_Time.Time := Ada.Real_Time.Clock;

   procedure Show (What : String) is
      Length : constant Duration := Ada.Real_Time.To_Duration (Ada.Real_Time.Clock - Begun);
   begin
      Ada.Text_IO.Put_Line (What & Duration'Image (Clock - Day) & Duration'Image (Length));
   end Show;

   task Tick;

   task body Tick is
   begin
      delay 0.25;
      Show ("task");
      delay until Day + 2.5;
      Show ("task");
   end Tick;
begin
   Ada.Text_IO.Put_Line ("year" & Year_Number'Image (Year (Day)));
   delay 3600.0;
   Show ("main");
end Clocks;
