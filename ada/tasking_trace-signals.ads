--  SPDX-License-Identifier: MIT
--  Dumps at a signal. It stands apart from Tasking_Trace, so that only a program which names it takes a signal. It
--  needs interrupts (Ada 95, Annex C.3) by the names of the implementation; GNAT has those of Unix.

with Ada.Interrupts.Names;

package Tasking_Trace.Signals is

   --  From here on Tasking_Trace.Dump is called, by a task of the package's own, whenever the signal comes. The program
   --  doesn't end by it then. SIGQUIT is what `kill -QUIT` sends, and in a terminal Ctrl with the backslash. The task
   --  ends a tenth of a second after the main program at most.
   procedure Dump_At (Signal : Ada.Interrupts.Interrupt_ID := Ada.Interrupts.Names.SIGQUIT);

end Tasking_Trace.Signals;
