--  SPDX-License-Identifier: MIT
--  Two tasks pass a protected entry, which closes after each of them: whoever comes second may have to wait for the
--  main program, which opens it again.

with Ada.Text_IO;

procedure Guarded_Object is
   protected Gate is
      entry Pass (Number : out Integer);
      procedure Open;
   private
      Is_Open : Boolean := True;
      Passed  : Integer := 0;
   end Gate;

   protected body Gate is
      entry Pass (Number : out Integer) when Is_Open is
      begin
         Is_Open := False;
         Passed  := Passed + 1;
         Number  := Passed;
      end Pass;

      procedure Open is
      begin
         Is_Open := True;
      end Open;
   end Gate;

   Left_Number, Right_Number : Integer := 0;
begin
   declare
      task Left;
      task Right;

      task body Left is
      begin
         delay 0.0;
         Gate.Pass (Left_Number);
      end Left;

      task body Right is
      begin
         delay 0.0;
         Gate.Pass (Right_Number);
      end Right;
   begin
      delay 1.0;
      Gate.Open;
   end;
   Ada.Text_IO.Put_Line ("left" & Integer'Image (Left_Number) & ", right" & Integer'Image (Right_Number));
end Guarded_Object;
