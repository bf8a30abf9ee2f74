--  SPDX-License-Identifier: MIT
--  A task that waits for a signal, of which no kernel of tasks knows.

procedure Outside is
   procedure Pause with Import, Convention => C, External_Name => "pause";

   task Waiter;
   task Other;

   task body Waiter is
   begin
      Pause;
   end Waiter;

   task body Other is
   begin
      null;
   end Other;
begin
   null;
end Outside;
