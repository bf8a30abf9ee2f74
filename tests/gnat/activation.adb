--  SPDX-License-Identifier: MIT
--  Who activates tasks waits until all have come up or failed; if one fails TASKING_ERROR is raised (9.3).
with Ada.Text_IO; use Ada.Text_IO;

procedure Activation is
   function Slow return Integer is
   begin
      delay 0.05;
      Put_Line ("a task is being activated");
      return 1;
   end Slow;

   function Fails return Integer is
   begin
      return raise Constraint_Error;
   end Fails;
begin
   declare
      task Late is
         entry Go;
      end Late;
      task body Late is
         Value : constant Integer := Slow;
      begin
         accept Go;
         Put_Line ("its body runs after" & Integer'Image (Value) & " step");
      end Late;
   begin
      Put_Line ("the block's statements begin");
      Late.Go;
   end;
   begin
      declare
         task Bad;
         task Good is
            entry Never;
         end Good;
         task body Bad is
            Value : constant Integer := Fails;
         begin
            Put_Line ("never printed" & Integer'Image (Value));
         end Bad;
         task body Good is
         begin
            Put_Line ("the other one comes up");
            select
               accept Never;
            or
               terminate;
            end select;
         end Good;
      begin
         Put_Line ("never printed");
      end;
   exception
      when Tasking_Error =>
         Put_Line ("one activation failed");
   end;
   begin
      declare
         task Unactivated;
         task body Unactivated is
         begin
            Put_Line ("never printed");
         end Unactivated;
         Value : constant Integer := Fails;
      begin
         Put_Line ("never printed" & Integer'Image (Value));
      end;
   exception
      when Constraint_Error =>
         Put_Line ("a declaration failed, before any activation");
   end;
end Activation;
