--  SPDX-License-Identifier: MIT
--  Units of GNAT's that know tasks, and into which bodies of tasking are inlined: attributes and identities of tasks,
--  handlers for their end, priorities, timers and protected objects work beside the kernel.
with Ada.Dynamic_Priorities;
with Ada.Exceptions;
with Ada.Execution_Time;
with Ada.Interrupts.Names;
with Ada.Synchronous_Task_Control;
with Ada.Task_Attributes;
with Ada.Task_Identification; use Ada.Task_Identification;
with Ada.Task_Termination;
with Ada.Text_IO; use Ada.Text_IO;
with GNAT.Threads;
with Other_Units_Handler;
with System.Multiprocessors.Dispatching_Domains;
pragma Unreferenced (Ada.Execution_Time, Ada.Interrupts.Names, GNAT.Threads);
pragma Unreferenced (System.Multiprocessors.Dispatching_Domains);

procedure Other_Units is
   package Counters is new Ada.Task_Attributes (Integer, 7);

   Signal : Ada.Synchronous_Task_Control.Suspension_Object;

   task Worker is
      entry Start;
   end Worker;

   task body Worker is
   begin
      accept Start do
         Put_Line ("called by the main program: " & Boolean'Image (Start'Caller = Environment_Task));
      end Start;
      Put_Line ("its image begins with " & Image (Current_Task) (1 .. 7));
      Counters.Set_Value (Counters.Value + 1);
      Put_Line ("its attribute:" & Integer'Image (Counters.Value));
      Ada.Synchronous_Task_Control.Suspend_Until_True (Signal);
      select
         Other_Units_Handler.Gate.Pass;
      or
         delay 0.02;
         Put_Line ("the gate is closed");
      end select;
      select
         delay 0.02;
         Put_Line ("enough");
      then abort
         loop
            delay 0.001;
         end loop;
      end select;
      Ada.Exceptions.Raise_Exception (Constraint_Error'Identity, "the end");
   end Worker;

   task type Patient is
      entry Never;
   end Patient;

   task body Patient is
   begin
      select
         accept Never;
      or
         terminate;
      end select;
   end Patient;

   procedure End_Patient (Is_By_Abort : Boolean) is
      P : Patient;
   begin
      Ada.Task_Termination.Set_Specific_Handler (P'Identity, Other_Units_Handler.Gate.Say'Access);
      if Is_By_Abort then
         abort P;
      end if;
   end End_Patient;
begin
   Ada.Task_Termination.Set_Specific_Handler (Worker'Identity, Other_Units_Handler.Gate.Say'Access);
   Put_Line ("same priority: " & Boolean'Image
     (Ada.Dynamic_Priorities.Get_Priority (Worker'Identity) = Ada.Dynamic_Priorities.Get_Priority));
   Worker.Start;
   Ada.Synchronous_Task_Control.Set_True (Signal);
   while not Is_Terminated (Worker'Identity) loop
      delay 0.001;
   end loop;
   End_Patient (Is_By_Abort => False);
   End_Patient (Is_By_Abort => True);
   Put_Line ("the main program's attribute:" & Integer'Image (Counters.Value));
end Other_Units;
