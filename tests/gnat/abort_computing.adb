--  SPDX-License-Identifier: MIT
--  The kernel completes a task that is aborted at once, and its thread computes on to its next tasking operation. Until
--  then it isn't seen as terminated, and a caller that it serves waits, whose parameters it uses, and so does whoever
--  leaves its master. A protected action is such an operation (9.10; 9.8 of Ada 95).
with Ada.Calendar; use Ada.Calendar;
with Ada.Text_IO; use Ada.Text_IO;

procedure Abort_Computing is
   Is_Computing, Is_Aborted, Is_Over : Boolean := False with Volatile;

   --  Begins, computes on for a while after the abort, and says that it is over
   procedure Compute is
      Until_Then : Time;
   begin
      Is_Over := False;
      Is_Aborted := False;
      Is_Computing := True;
      while not Is_Aborted loop
         null;
      end loop;
      Until_Then := Clock + 0.05;
      while Clock < Until_Then loop
         null;
      end loop;
      Is_Over := True;
   end Compute;

   procedure Await_Computing is
   begin
      while not Is_Computing loop
         delay 0.001;
      end loop;
      Is_Computing := False;
   end Await_Computing;

   procedure Serve_And_Compute is
      task Server is
         entry Serve;
      end Server;
      task body Server is
      begin
         accept Serve do
            Compute;
         end Serve;
         Put_Line ("never printed");
      end Server;

      task Killer;
      task body Killer is
      begin
         Await_Computing;
         abort Server;
         Is_Aborted := True;
      end Killer;
   begin
      Server.Serve;
   exception
      when Tasking_Error =>
         Put_Line ("TASKING_ERROR; the accept statement is left: " & Boolean'Image (Is_Over));
   end Serve_And_Compute;

   procedure Leave_Computing is
      task Partner is
         entry Never;
      end Partner;
      task body Partner is
      begin
         select
            accept Never;
            Put_Line ("never printed");
         or
            terminate;
         end select;
      end Partner;

      task Computer;
      task body Computer is
      begin
         Compute;
         Partner.Never;
         Put_Line ("never printed");
      end Computer;
   begin
      Await_Computing;
      abort Computer;
      Put_Line ("the computer is callable: " & Boolean'Image (Computer'Callable) & ", terminated: " &
                Boolean'Image (Computer'Terminated));
      Is_Aborted := True;
   end Leave_Computing;

   procedure Leave_Touching is
      protected Cell is
         procedure Touch;
      end Cell;
      protected body Cell is
         procedure Touch is
         begin
            Is_Computing := True;
         end Touch;
      end Cell;

      task Toucher;
      task body Toucher is
      begin
         loop
            Cell.Touch;
         end loop;
      end Toucher;
   begin
      Await_Computing;
      abort Toucher;
   end Leave_Touching;
begin
   Serve_And_Compute;
   Leave_Computing;
   Put_Line ("its master is left, and its thread is over: " & Boolean'Image (Is_Over));
   Leave_Touching;
   Put_Line ("a protected action ended the last one");
end Abort_Computing;
