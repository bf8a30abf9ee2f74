--  SPDX-License-Identifier: MIT
--  The abort of a task that serves a call raises TASKING_ERROR in the caller; a caller that is aborted is completed by
--  the end of the rendezvous at the latest (9.10).
with Ada.Text_IO; use Ada.Text_IO;

procedure Abort_Rendezvous is
   task Server is
      entry Serve (Value : out Integer);
   end Server;

   task body Server is
   begin
      accept Serve (Value : out Integer) do
         Value := 1;
         loop
            delay 0.001;
         end loop;
      end Serve;
   end Server;

   task Killer;

   task body Killer is
   begin
      delay 0.05;
      abort Server;
      Put_Line ("the server is callable: " & Boolean'Image (Server'Callable));
   end Killer;

   Value : Integer;
begin
   begin
      Server.Serve (Value);
      Put_Line ("never printed");
   exception
      when Tasking_Error =>
         while not Killer'Terminated loop
            delay 0.001;
         end loop;
         Put_Line ("the call raised TASKING_ERROR");
   end;
   declare
      task Patient is
         entry Serve;
      end Patient;
      task Caller;
      task body Patient is
      begin
         accept Serve do
            abort Caller;
            Put_Line ("the caller is callable: " & Boolean'Image (Caller'Callable));
            Put_Line ("the rendezvous goes on");
         end Serve;
         Put_Line ("and comes to its end");
      end Patient;
      task body Caller is
      begin
         Patient.Serve;
         Put_Line ("never printed");
      end Caller;
   begin
      null;
   end;
end Abort_Rendezvous;
