--  SPDX-License-Identifier: MIT
--  Parameters go in and out of a rendezvous, which lasts until the accept statement ends, also of one within another
--  (9.5).
with Ada.Task_Identification; use Ada.Task_Identification;
with Ada.Text_IO; use Ada.Text_IO;

procedure Rendezvous is
   task Server is
      entry Add (Left, Right : Integer; Sum : out Integer);
      entry Double (Value : in out Integer);
      entry Stop;
   end Server;

   task body Server is
   begin
      accept Add (Left, Right : Integer; Sum : out Integer) do
         Sum := Left + Right;
         delay 0.02;
         Put_Line ("the server has added");
      end Add;
      accept Double (Value : in out Integer) do
         Value := 2 * Value;
      end Double;
      accept Stop;
   end Server;

   task Nested is
      entry Outer (Value : in out Integer);
      entry Inner (Value : in out Integer);
   end Nested;

   task Helper;

   task body Nested is
   begin
      accept Outer (Value : in out Integer) do
         Value := Value + 1;
         accept Inner (Value : in out Integer) do
            Value := 10 * Value;
            Put_Line ("the outer caller is the main program: " & Boolean'Image (Outer'Caller = Environment_Task));
            Put_Line ("the inner one is the helper: " & Boolean'Image (Inner'Caller = Helper'Identity));
         end Inner;
         while not Helper'Terminated loop
            delay 0.001;
         end loop;
         Value := 2 * Value;
      end Outer;
   end Nested;

   task body Helper is
      Value : Integer := 7;
   begin
      Nested.Inner (Value);
      Put_Line ("the inner call has made" & Integer'Image (Value));
   end Helper;

   Value : Integer;
begin
   Server.Add (19, 2, Value);
   Put_Line ("the sum is" & Integer'Image (Value));
   Server.Double (Value);
   Put_Line ("twice that is" & Integer'Image (Value));
   Nested.Outer (Value);
   Put_Line ("the outer call has made" & Integer'Image (Value));
   Server.Stop;
   while not Server'Terminated loop
      delay 0.001;
   end loop;
   Put_Line ("callable: " & Boolean'Image (Server'Callable));
   Server.Stop;
exception
   when Tasking_Error =>
      Put_Line ("the server is terminated");
end Rendezvous;
