--  SPDX-License-Identifier: MIT
--  Two tasks call each other, and hang: trace_hang FILE WAY. The log has to be tests/conform/hang.log, whose last lines
--  are dumped in this way: by a `call`, after a `silence`, or at a `signal`.

with Ada.Command_Line; use Ada.Command_Line;
with Tasking_Trace;    use Tasking_Trace;
with Tasking_Trace.Signals;

procedure Trace_Hang is

   Way : constant String := Argument (2);

   Silence : constant Duration := 1.0;

   function Own_Process return Integer with Import, Convention => C, External_Name => "getpid";
   function Send (Process, Signal : Integer) return Integer with Import, Convention => C, External_Name => "kill";
   Quit : constant := 3;

   --  How many of the four acts are done that come in this order: Ann is up, Ben is up, Ann calls, Ben calls.
   protected Acts is
      procedure Do_Next;
      entry Await (1 .. 4);
   private
      Done : Natural := 0;
   end Acts;

   protected body Acts is

      procedure Do_Next is
      begin
         Done := Done + 1;
      end Do_Next;

      entry Await (for Count in 1 .. 4) when Done >= Count is
      begin
         null;
      end Await;

   end Acts;

   procedure Run is

      task Ann is
         entry Take;
      end Ann;

      task Ben is
         entry Take;
      end Ben;

      task body Ann is
         Started : constant Activation := Up ("Ann");
      begin
         Acts.Do_Next;
         Acts.Await (2);
         Will_Call ("Ben", "Take");
         Acts.Do_Next;
         Ben.Take;
         Will_Wait ("accept Take");
         accept Take do
            Begin_Rendezvous (Take'Caller);
            End_Rendezvous;
         end Take;
         Complete_Task;
      end Ann;

      function Up_After_Ann return Activation is
      begin
         Acts.Await (1);
         return Up ("Ben");
      end Up_After_Ann;

      task body Ben is
         Started : constant Activation := Up_After_Ann;
      begin
         Acts.Do_Next;
         Acts.Await (3);
         Will_Call ("Ann", "Take");
         Acts.Do_Next;
         Ann.Take;
         Will_Wait ("accept Take");
         accept Take do
            Begin_Rendezvous (Take'Caller);
            End_Rendezvous;
         end Take;
         Complete_Task;
      end Ben;

   begin
      Acts.Await (4);
      --  The silence isn't over before this line.
      if Way = "silence" then
         delay Silence / 5;
      end if;
      Close_Block;
      if Way = "call" then
         Dump;
      elsif Way = "signal" and then Send (Own_Process, Quit) /= 0 then
         raise Program_Error;
      end if;
   end Run;

begin
   Open (Argument (1), Dump_After => (if Way = "silence" then Silence else 0.0));
   if Way = "signal" then
      Signals.Dump_At;
   end if;
   Open_Block ("Both");
   Create_Task ("Ann", "Both", "Take");
   Create_Task ("Ben", "Both", "Take");
   Activate_Tasks ("Ann Ben");
   Run;
   Complete_Task;
   Close;
end Trace_Hang;
