--  SPDX-License-Identifier: MIT

with Ada.Task_Identification; use Ada.Task_Identification;

package body Tasking_Trace.Signals is

   --  How often the task looks whether the main program is over.
   Look_Every : constant Duration := 0.1;

   --  A handler may not wait for the log, so it wakes a task.
   protected Bell is
      procedure Ring with Interrupt_Handler;
      entry Await;
   private
      Is_Rung : Boolean := False;
   end Bell;

   protected body Bell is

      procedure Ring is
      begin
         Is_Rung := True;
      end Ring;

      entry Await when Is_Rung is
      begin
         Is_Rung := False;
      end Await;

   end Bell;

   task type Listener;
   type Listener_Access is access Listener;
   Listening : Listener_Access;

   --  The program ends only after this task, so it goes on no longer than the main program.
   task body Listener is
   begin
      while Is_Callable (Environment_Task) loop
         select
            Bell.Await;
            Dump;
         or
            delay Look_Every;
         end select;
      end loop;
   end Listener;

   procedure Dump_At (Signal : Ada.Interrupts.Interrupt_ID := Ada.Interrupts.Names.SIGQUIT) is
   begin
      Ada.Interrupts.Attach_Handler (Bell.Ring'Access, Signal);
      if Listening = null then
         Listening := new Listener;
      end if;
   end Dump_At;

end Tasking_Trace.Signals;
