--  SPDX-License-Identifier: MIT
--  Conditional and timed calls, and accepts with a delay and an else part (9.7.1, 9.7.2, 9.7.3).
with Ada.Calendar; use Ada.Calendar;
with Ada.Text_IO; use Ada.Text_IO;

procedure Timed_Calls is
   Has_Looked : Boolean := False with Volatile;

   task Server is
      entry Start;
      entry Serve;
   end Server;

   task body Server is
   begin
      select
         accept Serve;
         Put_Line ("never printed");
      else
         Put_Line ("nobody calls yet");
         Has_Looked := True;
      end select;
      accept Start;
      select
         accept Serve;
         Put_Line ("never printed");
      or
         delay 0.02;
         Put_Line ("nobody called in time");
      end select;
      accept Start;
      accept Serve do
         Put_Line ("served");
      end Serve;
   end Server;

   Before : Time;
begin
   while not Has_Looked loop
      delay 0.001;
   end loop;
   delay until Clock + 0.05;
   select
      Server.Serve;
      Put_Line ("never printed");
   else
      Put_Line ("the server doesn't accept");
   end select;
   Server.Start;
   Server.Start;
   Before := Clock;
   select
      Server.Serve;
   or
      delay 5.0;
      Put_Line ("never printed");
   end select;
   Put_Line ("at once: " & Boolean'Image (Clock - Before < 4.0));
   declare
      task Busy is
         entry Serve;
      end Busy;
      task body Busy is
      begin
         delay 0.2;
         select
            accept Serve;
         or
            terminate;
         end select;
      end Busy;
   begin
      Before := Clock;
      select
         Busy.Serve;
         Put_Line ("never printed");
      or
         delay 0.05;
         Put_Line ("given up after 50 ms: " & Boolean'Image (Clock - Before >= 0.05));
      end select;
   end;
end Timed_Calls;
