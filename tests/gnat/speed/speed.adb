--  SPDX-License-Identifier: MIT
--  speed KIND COUNT does so many rendezvous of two tasks: trivial ones, with a parameter, or timed calls against a
--  select with a terminate alternative; or makes and ends so many tasks, one by one.
with Ada.Command_Line; use Ada.Command_Line;
with Ada.Text_IO; use Ada.Text_IO;

procedure Speed is
   Count : constant Positive := Positive'Value (Argument (2));

   procedure Trivial is
      task Server is
         entry Meet;
      end Server;
      task body Server is
      begin
         for Call in 1 .. Count loop
            accept Meet;
         end loop;
      end Server;
   begin
      for Call in 1 .. Count loop
         Server.Meet;
      end loop;
   end Trivial;

   procedure Parameter is
      task Server is
         entry Next (Value : in out Integer);
      end Server;
      task body Server is
      begin
         for Call in 1 .. Count loop
            accept Next (Value : in out Integer) do
               Value := Value + 1;
            end Next;
         end loop;
      end Server;
      Value : Integer := 0;
   begin
      for Call in 1 .. Count loop
         Server.Next (Value);
      end loop;
      Put_Line (Integer'Image (Value));
   end Parameter;

   procedure Timed is
      task Server is
         entry Next (Value : in out Integer);
         entry Other;
      end Server;
      task body Server is
      begin
         loop
            select
               accept Next (Value : in out Integer) do
                  Value := Value + 1;
               end Next;
            or
               accept Other;
            or
               terminate;
            end select;
         end loop;
      end Server;
      Value : Integer := 0;
   begin
      for Call in 1 .. Count loop
         select
            Server.Next (Value);
         or
            delay 10.0;
         end select;
      end loop;
      Put_Line (Integer'Image (Value));
   end Timed;

   procedure Create is
      task type Worker;
      task body Worker is
      begin
         null;
      end Worker;
   begin
      for Made in 1 .. Count loop
         declare
            W : Worker;
            pragma Unreferenced (W);
         begin
            null;
         end;
      end loop;
   end Create;

   Kind : constant String := Argument (1);
begin
   if Kind = "trivial" then
      Trivial;
   elsif Kind = "parameter" then
      Parameter;
   elsif Kind = "timed" then
      Timed;
   elsif Kind = "create" then
      Create;
   end if;
end Speed;
