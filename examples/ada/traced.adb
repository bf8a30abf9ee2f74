--  SPDX-License-Identifier: MIT
--  A bounded buffer with its makers and users, each tasking action of which is written to a file as a line of a script
--  of adatask: traced FILE. With a second word one kind of action is written at another place than tasking_trace.ads
--  asks, as a program well might: `calls`, `tries` and `timed` calls and `waits` before they are made, `ups` after the
--  `begin`, `ends` after the accept statement, `aborts` without the lock. docs/EMBEDDING.md tells what comes of that.

with Ada.Command_Line;          use Ada.Command_Line;
with Ada.Numerics.Float_Random; use Ada.Numerics.Float_Random;
with Tasking_Trace;             use Tasking_Trace;

procedure Traced is

   Moved : constant String := (if Argument_Count > 1 then Argument (2) else "");

   Calls_Are_Moved  : constant Boolean := Moved = "calls";
   Tries_Are_Moved  : constant Boolean := Moved = "tries";
   Timed_Are_Moved  : constant Boolean := Moved = "timed";
   Waits_Are_Moved  : constant Boolean := Moved = "waits";
   Ups_Are_Moved    : constant Boolean := Moved = "ups";
   Ends_Are_Moved   : constant Boolean := Moved = "ends";
   Aborts_Are_Moved : constant Boolean := Moved = "aborts";

   Places : constant := 2;
   Rounds : constant := 6;

   --  The last act of an activation, as a declaration, unless it is moved to the statements.
   function Is_Up (Name : String) return Boolean is
   begin
      if not Ups_Are_Moved then
         End_Activation (Name);
      end if;
      return not Ups_Are_Moved;
   end Is_Up;

   procedure Begin_Statements (Name : String; Is_Up : Boolean) is
   begin
      if not Is_Up then
         End_Activation (Name);
      end if;
   end Begin_Statements;

   --  Spends up to a quarter of a millisecond, so that the tasks come in many orders.
   procedure Dawdle (Source : in out Generator) is
   begin
      delay Duration (Random (Source)) * 0.000_25;
   end Dawdle;

   --  The block in which the tasks are.
   procedure Run_Shop is

      task Store is
         entry Put (Item : Integer);
         entry Get (Item : out Integer);
         entry Look;
      end Store;

      task type Maker (Number : Positive);
      task type User (Number : Positive);
      task Hasty;
      task Lost;
      Maker1 : Maker (1);
      Maker2 : Maker (2);
      User1  : User (1);
      User2  : User (2);
      pragma Unreferenced (Maker1, Maker2, User1, User2);

      task body Store is
         Last    : Last_Wait;
         pragma Unreferenced (Last);
         Stock   : array (1 .. Places) of Integer;
         In_Use  : Natural := 0;
         Started : constant Boolean := Is_Up ("Store");

         procedure Announce is
         begin
            Will_Wait
              ("select 0 " & Guarded (In_Use < Places, "accept Put") & " or " & Guarded (In_Use > 0, "accept Get")
               & " or accept Look or terminate", At_Once => Waits_Are_Moved);
         end Announce;

      begin
         Begin_Statements ("Store", Started);
         loop
            Announce;
            select
               when In_Use < Places =>
                  accept Put (Item : Integer) do
                     Begin_Rendezvous (Put'Caller);
                     In_Use := In_Use + 1;
                     Stock (In_Use) := Item;
                     if not Ends_Are_Moved then
                        End_Rendezvous;
                     end if;
                  end Put;
            or
               when In_Use > 0 =>
                  accept Get (Item : out Integer) do
                     Begin_Rendezvous (Get'Caller);
                     Item := Stock (1);
                     Stock (1) := Stock (Places);
                     In_Use := In_Use - 1;
                     if not Ends_Are_Moved then
                        End_Rendezvous;
                     end if;
                  end Get;
            or
               accept Look do
                  Begin_Rendezvous (Look'Caller);
                  if not Ends_Are_Moved then
                     End_Rendezvous;
                  end if;
               end Look;
            or
               terminate;
            end select;
            if Ends_Are_Moved then
               End_Rendezvous;
            end if;
         end loop;
      end Store;

      task body Maker is
         Name    : constant String := "Maker" & Character'Val (Character'Pos ('0') + Number);
         Source  : Generator;
         Started : constant Boolean := Is_Up (Name);
      begin
         Begin_Statements (Name, Started);
         Reset (Source);
         for Item in 1 .. Rounds loop
            Dawdle (Source);
            Will_Call ("Store", "Put", At_Once => Calls_Are_Moved);
            Store.Put (Item);
         end loop;
         Complete_Task;
      end Maker;

      task body User is
         Name    : constant String := "User" & Character'Val (Character'Pos ('0') + Number);
         Source  : Generator;
         Item    : Integer;
         Started : constant Boolean := Is_Up (Name);
      begin
         Begin_Statements (Name, Started);
         Reset (Source);
         for Round in 1 .. Rounds loop
            Will_Call ("Store", "Get", At_Once => Calls_Are_Moved);
            Store.Get (Item);
            pragma Assert (Item in 1 .. Rounds);
            Dawdle (Source);
         end loop;
         Complete_Task;
      end User;

      --  Calls conditionally, for a time, and is delayed.
      task body Hasty is
         Source  : Generator;
         Started : constant Boolean := Is_Up ("Hasty");
      begin
         Begin_Statements ("Hasty", Started);
         Reset (Source);
         for Round in 1 .. Rounds loop
            Will_Call ("Store", "Look", Conditional, At_Once => Tries_Are_Moved);
            select
               Store.Look;
            else
               Call_Is_Over;
            end select;
            Will_Call ("Store", "Look", Timed, 0.001, At_Once => Timed_Are_Moved);
            select
               Store.Look;
            or
               delay 0.001;
               Call_Is_Over;
            end select;
            Delay_For (0.001);
            delay 0.001;
            Delay_Is_Over;
            Dawdle (Source);
         end loop;
         Complete_Task;
      end Hasty;

      --  Calls until it is aborted.
      task body Lost is
         Started : constant Boolean := Is_Up ("Lost");
      begin
         Begin_Statements ("Lost", Started);
         loop
            Will_Call ("Store", "Look", At_Once => Calls_Are_Moved);
            Store.Look;
            Delay_For (0.0);
            delay 0.0;
            Delay_Is_Over;
         end loop;
      end Lost;

      procedure Abort_Lost is
      begin
         abort Lost;
      end Abort_Lost;

      procedure Do_Nothing is null;

      Source : Generator;

   begin
      Will_Call ("Store", "Look", At_Once => Calls_Are_Moved);
      Store.Look;
      Reset (Source);
      delay Duration (Random (Source)) * 0.005;
      if Aborts_Are_Moved then
         Abort_Tasks ("Lost", Do_Nothing'Access);
         abort Lost;
      else
         Abort_Tasks ("Lost", Abort_Lost'Access);
      end if;
      Close_Block;
   end Run_Shop;

begin
   Open (Argument (1));
   Open_Block ("Shop");
   Create_Task ("Store", "Shop", "Put Get Look");
   Create_Task ("Hasty", "Shop");
   Create_Task ("Lost", "Shop");
   Create_Task ("Maker1", "Shop");
   Create_Task ("Maker2", "Shop");
   Create_Task ("User1", "Shop");
   Create_Task ("User2", "Shop");
   Activate_Tasks ("Store Hasty Lost Maker1 Maker2 User1 User2");
   Run_Shop;
   Complete_Task;
   Close;
end Traced;
