--  SPDX-License-Identifier: MIT
--  Calls that are made only if they are accepted at once, and one that comes after the server's end.

with Ada.Text_IO;

procedure Doubtful_Call is
   Tried, Called, Failed : Boolean := False;
begin
   declare
      task Server is
         entry Serve;
      end Server;
      task Trier;
      task Caller;

      task body Server is
      begin
         accept Serve;
      end Server;

      task body Trier is
      begin
         select
            Server.Serve;
            Tried := True;
         else
            null;
         end select;
      exception
         when Tasking_Error =>
            null;
      end Trier;

      task body Caller is
      begin
         Server.Serve;
         Called := True;
      exception
         when Tasking_Error =>
            Failed := True;
      end Caller;
   begin
      null;
   end;
   Ada.Text_IO.Put_Line ("tried: " & Boolean'Image (Tried));
   Ada.Text_IO.Put_Line ("called: " & Boolean'Image (Called));
   Ada.Text_IO.Put_Line ("failed: " & Boolean'Image (Failed));
end Doubtful_Call;
