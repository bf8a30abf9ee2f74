--  SPDX-License-Identifier: MIT
--  A call that may be cancelled before its server comes to accept it, and a server that may be gone before the call.

with Ada.Text_IO;

procedure Timed_Race is
   Was_Served, Is_Gone : Boolean := False;
begin
   declare
      task Server is
         entry Serve;
      end Server;
      task Client;

      task body Server is
      begin
         delay 1.0;
         select
            accept Serve;
         or
            delay 1.0;
         end select;
      end Server;

      task body Client is
      begin
         select
            Server.Serve;
            Was_Served := True;
         or
            delay 2.0;
         end select;
      exception
         when Tasking_Error =>
            Is_Gone := True;
      end Client;
   begin
      null;
   end;
   Ada.Text_IO.Put_Line
     ((if Was_Served then "served" elsif Is_Gone then "the server was gone" else "cancelled"));
end Timed_Race;
