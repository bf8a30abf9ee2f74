--  SPDX-License-Identifier: MIT
--  Tasks that are made by an allocator, many more than live at a time: their control blocks, and their names in the
--  kernel, are given back by Unchecked_Deallocation, also where the task isn't terminated yet, and where it is left out
--  once the kernel is full.
with Ada.Text_IO; use Ada.Text_IO;
with Ada.Unchecked_Deallocation;

procedure Task_Access is
   task type Worker is
      entry Add (Value : Integer; Sum : in out Integer);
   end Worker;
   type Worker_Access is access Worker;

   task body Worker is
   begin
      accept Add (Value : Integer; Sum : in out Integer) do
         Sum := Sum + Value;
      end Add;
   end Worker;

   procedure Free is new Ada.Unchecked_Deallocation (Worker, Worker_Access);

   W, First : Worker_Access;
   Sum      : Integer := 0;
begin
   for Value in 1 .. 1_000 loop
      W := new Worker;
      W.Add (Value, Sum);
      if Value mod 2 = 0 then
         while not W'Terminated loop
            delay 0.0;
         end loop;
      end if;
      Free (W);
   end loop;
   Put_Line ("the sum of those given back is" & Integer'Image (Sum));
   First := new Worker;
   First.Add (0, Sum);
   Sum := 0;
   for Value in 1 .. 600 loop
      W := new Worker;
      W.Add (Value, Sum);
      while not W'Terminated loop
         delay 0.0;
      end loop;
   end loop;
   Put_Line ("the sum of those left out is" & Integer'Image (Sum));
   Put_Line ("the first is callable: " & Boolean'Image (First'Callable) & ", terminated: " &
             Boolean'Image (First'Terminated));
   First.Add (1, Sum);
exception
   when Tasking_Error =>
      Put_Line ("it can't be called");
end Task_Access;
