--  SPDX-License-Identifier: MIT
--  Tasks that wait at entries of a protected object, one of them for a while alone: GNAT's own code plays it, and the
--  turn is given on.

with Ada.Text_IO;

procedure Protected_Turns is
   protected Gate is
      entry Pass;
      procedure Open;
   private
      Is_Open : Boolean := False;
   end Gate;

   protected body Gate is
      entry Pass when Is_Open is
      begin
         Is_Open := False;
      end Pass;

      procedure Open is
      begin
         Is_Open := True;
      end Open;
   end Gate;

   Passed : Natural := 0;
begin
   declare
      task type Walker;
      Walkers : array (1 .. 2) of Walker;

      task body Walker is
      begin
         Gate.Pass;
         Passed := Passed + 1;
      end Walker;
   begin
      delay 1.0;
      Gate.Open;
      delay 1.0;
      Gate.Open;
   end;
   select
      Gate.Pass;
   or
      delay 5.0;
      Ada.Text_IO.Put_Line ("passed:" & Natural'Image (Passed));
   end select;
end Protected_Turns;
