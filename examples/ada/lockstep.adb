--  SPDX-License-Identifier: MIT
--  Ada's own tasks go along with the kernel: each tasking action is reported, and what GNAT's run time did must be what
--  the rules force. With 1, 2 or 3 as its word the program reports something that it doesn't do, and must be found out.
--
--  A report agrees with its action where nothing that matters can come between them:
--  - The end of an activation is reported in the declarative part, before the activator goes on. After the `begin` it
--    would come too late: a report of the activator could be refused, and the program would wait for ever.
--  - A call and the wait that accepts it are reported together, in the accept statement; a call that isn't accepted is
--    reported once that is known. So the order of a queue isn't told.
--  - It is told where the server sees by COUNT that each call is queued before the next one is made (Check_Queue).
--  - The end of a rendezvous is reported last in the accept statement.
--  - The end by a terminate alternative is reported as the task's own objects are finalized (Check_Buffer).
--  - An abort is reported before it is made; here the aborted task reports nothing in between (Check_Abort).

with Ada.Command_Line; use Ada.Command_Line;
with Ada.Finalization;
with Ada.Text_IO;
with Adatask;          use Adatask;
with GNAT.Source_Info; use GNAT.Source_Info;
with Lockstep_Rules;   use Lockstep_Rules;

procedure Lockstep is

   Astray : constant String := (if Argument_Count = 0 then "" else Argument (1));

   --  Ends the program if it hangs.
   task Watchdog is
      entry Stop;
   end Watchdog;

   task body Watchdog is
   begin
      select
         accept Stop;
      or
         delay 20.0;
         Disagree ("lockstep", "it came to no end in 20 seconds", Status => 124);
      end select;
   end Watchdog;

   --  The last act of an activation, as a declaration.
   function Come_Up (T : Task_Number; Where : String := Source_Location) return Boolean is
   begin
      Rules.Come_Up (T, Where);
      return True;
   end Come_Up;

   ------------------------------------------------------------------------
   --  Three calls of one entry are queued, and are served in that order --
   ------------------------------------------------------------------------

   procedure Check_Queue is

      Gate_Entry : constant Entry_Name := (Family => 0, Index => 0);
      Put_Entry  : constant Entry_Name := (Family => 1, Index => 0);

      Block   : Position;
      Server  : Task_Number;
      Queuers : Task_List (1 .. 3);

      --  Lets a queuer call once those before it are queued.
      protected Turn is
         procedure Pass (To : Place);
         entry Take (1 .. 3);
      private
         Last : Place := 0;
      end Turn;

      protected body Turn is

         procedure Pass (To : Place) is
         begin
            Last := To;
         end Pass;

         entry Take (for Number in 1 .. 3) when Place (Number) <= Last is
         begin
            null;
         end Take;

      end Turn;

      procedure Run is

         task Server_Task is
            entry Gate;
            entry Put (Caller : Task_Number);
         end Server_Task;

         task type Queuer (Number : Positive);
         First  : Queuer (1);
         Second : Queuer (2);
         Third  : Queuer (3);
         pragma Unreferenced (First, Second, Third);

         task body Server_Task is
            Is_Up : constant Boolean := Come_Up (Server);
            pragma Unreferenced (Is_Up);
         begin
            Rules.Wait (Server, (0 => (Gate_Entry, True)));
            accept Gate do
               Rules.Has_Accepted (Server, Caller => Main_Program, Alternative => 0);
               for Number in Queuers'Range loop
                  Turn.Pass (Number);
                  while Put'Count < Natural (Number) loop
                     delay 0.001;
                  end loop;
                  Rules.Compare_Count (Server, Put_Entry, Put'Count);
               end loop;
               Rules.End_Rendezvous (Server);
            end Gate;
            for Round in Queuers'Range loop
               Rules.Wait (Server, (0 => (Put_Entry, True)));
               accept Put (Caller : Task_Number) do
                  Rules.Has_Accepted (Server, Caller, Alternative => 0);  --  found out: 1
                  Rules.End_Rendezvous (Server);
               end Put;
            end loop;
            Rules.Complete (Server);
         end Server_Task;

         task body Queuer is
            Me    : constant Task_Number := Queuers (Place (Number));
            Other : constant Task_Number := Queuers (Place (if Number = 1 then 1 else 5 - Number));
            Is_Up : constant Boolean := Come_Up (Me);
            pragma Unreferenced (Is_Up);
         begin
            Turn.Take (Number);
            Rules.Call (((if Astray = "1" then Other else Me), Server, Put_Entry, Simple, 0));
            Server_Task.Put (Me);
            Rules.Expect (Me, Was_Served);
            Rules.Complete (Me);
         end Queuer;

      begin
         Rules.Expect (Main_Program, Activation_Ok);
         Rules.Call ((Main_Program, Server, Gate_Entry, Simple, 0));
         Server_Task.Gate;
         Rules.Expect (Main_Program, Was_Served);
         Rules.Close_Block (Main_Program);
      end Run;

   begin
      Rules.Open_Block (Main_Program, Block);
      Rules.Make_Task (Block, (Single_Entry, Single_Entry), Server);
      for Q of Queuers loop
         Rules.Make_Task (Block, No_Families, Q);
      end loop;
      Rules.Start (Server & Queuers);
      Run;
      Rules.Expect (Main_Program, Left_Block);
   end Check_Queue;

   --------------------------------------------------------------------------------------
   --  A buffer with guards and a terminate alternative; simple, timed and conditional  --
   --  calls; a delay                                                                   --
   --------------------------------------------------------------------------------------

   procedure Check_Buffer is

      Put_Entry : constant Entry_Name := (Family => 0, Index => 0);
      Get_Entry : constant Entry_Name := (Family => 1, Index => 0);
      Places    : constant := 2;
      Rounds    : constant := 40;
      Stock     : Natural := 0;

      Block              : Position;
      Store, Maker, User : Task_Number;

      --  What the store offers at its next wait.
      function Offered return Offers is
        ((Put_Entry, Is_Open => Stock < Places and then Astray /= "2"), (Get_Entry, Is_Open => Stock > 0));

      --  Reports the last wait of the store, as it ends by its terminate alternative.
      type Last_Wait is new Ada.Finalization.Limited_Controlled with null record;

      overriding procedure Finalize (Object : in out Last_Wait) is
         pragma Unreferenced (Object);
      begin
         Rules.Wait (Store, Offered, Terminate_Alternative);
         Rules.Expect (Store, Is_Dead);
      end Finalize;

      procedure Run is

         task Store_Task is
            entry Put (Made : Call_Made);
            entry Get (Made : Call_Made);
         end Store_Task;

         task Maker_Task;
         task User_Task;

         task body Store_Task is
            Last  : Last_Wait;
            Is_Up : constant Boolean := Come_Up (Store);
            pragma Unreferenced (Last, Is_Up);
         begin
            loop
               select
                  when Stock < Places =>
                     accept Put (Made : Call_Made) do
                        Rules.Meet (Made, Offered, Terminate_Alternative, Alternative => 0);  --  found out: 2
                        Stock := Stock + 1;
                        Rules.End_Rendezvous (Store);
                     end Put;
               or
                  when Stock > 0 =>
                     accept Get (Made : Call_Made) do
                        Rules.Meet (Made, Offered, Terminate_Alternative, Alternative => 1);
                        Stock := Stock - 1;
                        Rules.End_Rendezvous (Store);
                     end Get;
               or
                  terminate;
               end select;
            end loop;
         end Store_Task;

         task body Maker_Task is
            Is_Up : constant Boolean := Come_Up (Maker);
            pragma Unreferenced (Is_Up);
         begin
            for Round in 1 .. Rounds loop
               Store_Task.Put ((Maker, Store, Put_Entry, Simple, 0));
               Rules.Expect (Maker, Was_Served);
            end loop;
            Rules.Complete (Maker);
         end Maker_Task;

         task body User_Task is
            Is_Up : constant Boolean := Come_Up (User);
            pragma Unreferenced (Is_Up);
            Got : Natural := 0;

            procedure Get_At_Once is
               Made : constant Call_Made := (User, Store, Get_Entry, Conditional, 0);
            begin
               select
                  Store_Task.Get (Made);
                  Rules.Expect (User, Was_Served);
                  Got := Got + 1;
               else
                  Rules.Call (Made);
                  Rules.Expect (User, Was_Cancelled);
               end select;
            end Get_At_Once;

            --  One that has timed out is reported with no time left.
            procedure Get_In_Time is
            begin
               select
                  Store_Task.Get ((User, Store, Get_Entry, Timed, 1));
                  Rules.Expect (User, Was_Served);
                  Got := Got + 1;
               or
                  delay 0.001;
                  Rules.Call ((User, Store, Get_Entry, Timed, 0));
                  Rules.Expect (User, Was_Cancelled);
               end select;
            end Get_In_Time;

            procedure Rest is
            begin
               Rules.Tick;
               Rules.Begin_Delay (User, 2);
               delay 0.002;
               Rules.Tick;
               Rules.Expect (User, Is_Awake);
            end Rest;

         begin
            while Got < Rounds loop
               Get_At_Once;
               if Got < Rounds then
                  Get_In_Time;
               end if;
               if Got mod 10 = 0 then
                  Rest;
               end if;
            end loop;
            Rules.Complete (User);
         end User_Task;

      begin
         Rules.Expect (Main_Program, Activation_Ok);
         Rules.Close_Block (Main_Program);
      end Run;

   begin
      Rules.Open_Block (Main_Program, Block);
      Rules.Make_Task (Block, (Single_Entry, Single_Entry), Store);
      Rules.Make_Task (Block, No_Families, Maker);
      Rules.Make_Task (Block, No_Families, User);
      Rules.Start ((Store, Maker, User));
      Run;
      Rules.Expect (Main_Program, Left_Block);
   end Check_Buffer;

   --------------------------------------------------------------
   --  A server is aborted, and its caller has TASKING_ERROR  --
   --------------------------------------------------------------

   procedure Check_Abort is

      Ask_Entry : constant Entry_Name := (Family => 0, Index => 0);

      Block          : Position;
      Victim, Caller : Task_Number;

      procedure Run is

         task Victim_Task is
            entry Ask;
            entry Never;
            pragma Unreferenced (Never);
         end Victim_Task;

         task Caller_Task;

         --  It reports no wait, since none is met.
         task body Victim_Task is
            Is_Up : constant Boolean := Come_Up (Victim);
            pragma Unreferenced (Is_Up);
         begin
            accept Never;
            accept Ask;
         end Victim_Task;

         task body Caller_Task is
            Is_Up : constant Boolean := Come_Up (Caller);
            pragma Unreferenced (Is_Up);
         begin
            Victim_Task.Ask;
            Disagree (Source_Location, "a call that is never accepted was served");
         exception
            when Tasking_Error =>
               Rules.Call ((Caller, Victim, Ask_Entry, Simple, 0));
               Rules.Expect (Caller, Got_Tasking_Error);  --  found out: 3
               Rules.Complete (Caller);
         end Caller_Task;

      begin
         Rules.Expect (Main_Program, Activation_Ok);
         Rules.Compare (Victim, Victim_Task'Callable, Victim_Task'Terminated);
         if Astray /= "3" then
            Rules.Abort_Task (Main_Program, Victim);
         end if;
         abort Victim_Task;
         while not (Victim_Task'Terminated and then Caller_Task'Terminated) loop
            delay 0.001;
         end loop;
         Rules.Compare (Victim, Victim_Task'Callable, Victim_Task'Terminated);
         Rules.Compare (Caller, Caller_Task'Callable, Caller_Task'Terminated);
         Rules.Close_Block (Main_Program);
      end Run;

   begin
      Rules.Open_Block (Main_Program, Block);
      Rules.Make_Task (Block, (Single_Entry, Single_Entry), Victim);
      Rules.Make_Task (Block, No_Families, Caller);
      Rules.Start ((Victim, Caller));
      Run;
      Rules.Expect (Main_Program, Left_Block);
   end Check_Abort;

   Meetings : Natural;

begin
   Check_Queue;
   Check_Buffer;
   Check_Abort;
   Rules.Complete (Main_Program);
   Rules.Expect (Main_Program, Is_Dead);
   Rules.Count_Meetings (Meetings);
   Ada.Text_IO.Put_Line ("as the rules force it:" & Meetings'Image & " rendezvous");
   Watchdog.Stop;
end Lockstep;
