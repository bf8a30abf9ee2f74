--  SPDX-License-Identifier: MIT
--  What the kernel has no room for, and what it doesn't play, ends in an exception whose message says so.
with Ada.Exceptions; use Ada.Exceptions;
with Ada.Text_IO; use Ada.Text_IO;

procedure Limits is
   task type Idle is
      entry Never;
   end Idle;
   task body Idle is
   begin
      select
         accept Never;
      or
         terminate;
      end select;
   end Idle;

   task type Wide is
      entry Never (1 .. 600);
   end Wide;
   task body Wide is
   begin
      select
         accept Never (1);
      or
         terminate;
      end select;
   end Wide;

   procedure Many_Tasks is
      Crowd : array (1 .. 256) of Idle;
      pragma Unreferenced (Crowd);
   begin
      Put_Line ("never printed");
   end Many_Tasks;

   procedure Many_Entries is
      First, Second : Wide;
      pragma Unreferenced (First, Second);
   begin
      Put_Line ("never printed");
   end Many_Entries;

   procedure Deep (Levels : Natural) is
      Leaf : Idle;
      pragma Unreferenced (Leaf);
   begin
      if Levels > 1 then
         Deep (Levels - 1);
      end if;
   end Deep;

   procedure Requeues is
      task Server is
         entry First;
         entry Second;
      end Server;
      task body Server is
      begin
         accept First do
            requeue Second;
         end First;
         accept Second;
      end Server;
   begin
      Server.First;
   end Requeues;

   protected Gate is
      entry Pass;
   end Gate;
   protected body Gate is
      entry Pass when True is
      begin
         null;
      end Pass;
   end Gate;

   procedure Requeues_To_Protected is
      task Server is
         entry First;
      end Server;
      task body Server is
      begin
         accept First do
            requeue Gate.Pass;
         end First;
      end Server;
   begin
      Server.First;
   end Requeues_To_Protected;

   procedure Requeues_To_Task is
      task Server is
         entry Serve;
      end Server;
      protected Door is
         entry Pass;
      end Door;
      protected body Door is
         entry Pass when True is
         begin
            requeue Server.Serve;
         end Pass;
      end Door;
      task body Server is
      begin
         select
            accept Serve;
         or
            terminate;
         end select;
      end Server;
   begin
      Door.Pass;
   end Requeues_To_Task;

   procedure Selects is
      task Server is
         entry Serve;
      end Server;
      task body Server is
      begin
         select
            accept Serve;
         or
            terminate;
         end select;
      end Server;
   begin
      select
         Server.Serve;
      then abort
         Put_Line ("never printed");
      end select;
   end Selects;

   procedure Returns is
      function Made return Idle is
      begin
         return T : Idle;
      end Made;
      T : constant Idle := Made;
      pragma Unreferenced (T);
   begin
      Put_Line ("never printed");
   end Returns;

   procedure Try (Name : String; Action : not null access procedure) is
   begin
      Action.all;
      Put_Line (Name & ": no exception");
   exception
      when Error : others =>
         Put_Line (Name & ": " & Exception_Name (Error) & " " & Exception_Message (Error));
   end Try;

   procedure Within is
   begin
      Deep (30);
   end Within;

   procedure Too_Deep is
   begin
      Deep (40);
   end Too_Deep;
begin
   Try ("256 tasks", Many_Tasks'Access);
   Try ("1,200 entries", Many_Entries'Access);
   Try ("30 blocks", Within'Access);
   Try ("40 blocks", Too_Deep'Access);
   Try ("requeue", Requeues'Access);
   Try ("requeue to a protected entry", Requeues_To_Protected'Access);
   Try ("requeue from a protected entry", Requeues_To_Task'Access);
   Try ("asynchronous select", Selects'Access);
   Try ("a task returned", Returns'Access);
end Limits;
