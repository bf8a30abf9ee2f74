--  SPDX-License-Identifier: MIT
--  An exception that an accept statement doesn't handle is raised in both tasks, with its message (11.5).
with Ada.Exceptions; use Ada.Exceptions;
with Ada.Text_IO; use Ada.Text_IO;

procedure Exception_Rendezvous is
   Too_Much : exception;

   Has_Caller_Told : Boolean := False with Volatile;

   task Server is
      entry Serve (Value : Integer);
   end Server;

   task body Server is
   begin
      begin
         accept Serve (Value : Integer) do
            if Value > 1 then
               raise Too_Much with "no more than one";
            end if;
         end Serve;
      exception
         when Error : Too_Much =>
            while not Has_Caller_Told loop
               delay 0.001;
            end loop;
            Put_Line ("the server has " & Exception_Message (Error));
      end;
      accept Serve (Value : Integer) do
         begin
            raise Constraint_Error;
         exception
            when Constraint_Error =>
               Put_Line ("handled within" & Integer'Image (Value));
         end;
      end Serve;
   end Server;
begin
   begin
      Server.Serve (2);
      Put_Line ("never printed");
   exception
      when Error : Too_Much =>
         Put_Line ("the caller has " & Exception_Message (Error));
         Has_Caller_Told := True;
   end;
   Server.Serve (1);
   Put_Line ("the caller has none");
end Exception_Rendezvous;
