--  SPDX-License-Identifier: MIT
--  A task that asks whether another one is terminated, which ends when the one that depends on it does.

with Ada.Text_IO;

procedure Questions is
   Was_Terminated : Boolean := False;
begin
   declare
      task Holder;
      task Asker;

      task body Holder is
         task Inner;

         task body Inner is
         begin
            null;
         end Inner;
      begin
         null;
      end Holder;

      task body Asker is
      begin
         Was_Terminated := Holder'Terminated;
      end Asker;
   begin
      null;
   end;
   Ada.Text_IO.Put_Line ("terminated: " & Boolean'Image (Was_Terminated));
end Questions;
