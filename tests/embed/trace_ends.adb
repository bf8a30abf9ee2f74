--  SPDX-License-Identifier: MIT
--  Ends at once although it is watched for a silence and a signal: trace_ends FILE WAY. It leaves its log `closed` or
--  `open`, or it `raises` an exception.

with Ada.Command_Line; use Ada.Command_Line;
with Tasking_Trace;    use Tasking_Trace;
with Tasking_Trace.Signals;

procedure Trace_Ends is
   Way : constant String := Argument (2);
begin
   Open (Argument (1), Dump_After => 600.0);
   Signals.Dump_At;
   if Way = "closed" then
      Close;
   elsif Way = "raises" then
      raise Program_Error;
   end if;
end Trace_Ends;
