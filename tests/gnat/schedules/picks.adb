--  SPDX-License-Identifier: MIT
--  A task that may take one of two calls, and says which one it took first.

with Ada.Text_IO;

procedure Picks is
   Is_Left : Boolean := False;
begin
   declare
      task Server is
         entry Left;
         entry Right;
      end Server;
      task One;
      task Other;

      task body Server is
         Is_First : Boolean := True;
      begin
         delay 1.0;
         for Calls in 1 .. 2 loop
            select
               accept Left;
               Is_Left := Is_Left or Is_First;
            or
               accept Right;
            end select;
            Is_First := False;
         end loop;
      end Server;

      task body One is
      begin
         Server.Left;
      end One;

      task body Other is
      begin
         Server.Right;
      end Other;
   begin
      null;
   end;
   Ada.Text_IO.Put_Line ((if Is_Left then "left" else "right") & " came first");
end Picks;
