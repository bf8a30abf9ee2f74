--  SPDX-License-Identifier: MIT
with Ada.Text_IO; use Ada.Text_IO;

package body Other_Units_Handler is
   protected body Gate is
      entry Pass when Is_Open is
      begin
         null;
      end Pass;

      procedure Say
        (Cause : Ada.Task_Termination.Cause_Of_Termination;
         T     : Ada.Task_Identification.Task_Id;
         X     : Ada.Exceptions.Exception_Occurrence)
      is
         pragma Unreferenced (T);
         use type Ada.Task_Termination.Cause_Of_Termination;
      begin
         Put_Line ("ended by " & Ada.Task_Termination.Cause_Of_Termination'Image (Cause) &
                   (if Cause = Ada.Task_Termination.Unhandled_Exception
                    then ": " & Ada.Exceptions.Exception_Message (X)
                    else ""));
      end Say;

      procedure Take_Signal is
      begin
         null;
      end Take_Signal;
   end Gate;
end Other_Units_Handler;
