--  SPDX-License-Identifier: MIT
--  A protected object whose entry is never open, that says how a task ended, and for which a task of GNAT's waits for a
--  signal.
with Ada.Exceptions;
with Ada.Interrupts.Names;
with Ada.Task_Identification;
with Ada.Task_Termination;

package Other_Units_Handler is
   protected Gate is
      entry Pass;
      procedure Say
        (Cause : Ada.Task_Termination.Cause_Of_Termination;
         T     : Ada.Task_Identification.Task_Id;
         X     : Ada.Exceptions.Exception_Occurrence);
      procedure Take_Signal with Attach_Handler => Ada.Interrupts.Names.SIGUSR1;
   private
      Is_Open : Boolean := False;
   end Gate;
end Other_Units_Handler;
