--  SPDX-License-Identifier: MIT
--  Writes a log by tasks that come one after another: trace_lines FILE. tests/embed/trace_lines.tasks is what it has to
--  be. Then tries names and lines that are none. Prints what fails; the last line is 'N passed, M failed'.

with Ada.Command_Line; use Ada.Command_Line;
with Ada.Text_IO;      use Ada.Text_IO;
with Tasking_Trace;    use Tasking_Trace;

procedure Trace_Lines is

   Passed, Failed : Natural := 0;

   procedure Note (Is_Right : Boolean; What : String) is
   begin
      if Is_Right then
         Passed := Passed + 1;
      else
         Failed := Failed + 1;
         Put_Line ("FAILED: " & What);
      end if;
   end Note;

   --  A name that is none is refused.
   procedure Try_Name (Name, What : String) is
   begin
      Create_Task (Name);
      Note (False, What & " is taken for a name");
   exception
      when Bad_Line =>
         Note (True, What);
   end Try_Name;

   procedure Try_Statement (Words, What : String) is
   begin
      Will_Wait (Words, At_Once => True);
      Note (False, What & " is taken for a line");
   exception
      when Bad_Line =>
         Note (True, What);
   end Try_Statement;

   procedure Try_Announced (Words, What : String) is
   begin
      Will_Wait (Words);
      Note (False, What & " is taken for a line");
   exception
      when Bad_Line =>
         Note (True, What);
   end Try_Announced;

   --  Tasks go on in a known order: who awaits a stage goes on once another one has reached it.
   protected Stages is
      procedure Reach (Stage : Positive);
      entry Await (1 .. 10);
   private
      Reached : Positive := 1;
   end Stages;

   protected body Stages is

      procedure Reach (Stage : Positive) is
      begin
         Reached := Stage;
      end Reach;

      entry Await (for Stage in 1 .. 10) when Reached >= Stage is
      begin
         null;
      end Await;

   end Stages;

   function Is_Up (Name : String; Stage : Positive) return Boolean is
   begin
      Stages.Await (Stage);
      End_Activation (Name);
      Stages.Reach (Stage + 1);
      return True;
   end Is_Up;

   procedure Run is

      task Server is
         entry Ask (1 .. 2);
         entry Stop;
      end Server;

      task Owner;
      task Selfish;
      task Doomed;

      task body Server is
         Last : Last_Wait;
         Up   : constant Boolean := Is_Up ("Server", Stage => 1);
         pragma Unreferenced (Last, Up);
      begin
         Will_Wait ("accept Ask 2");
         accept Ask (2) do
            Begin_Rendezvous (Ask'Caller);
            Dump;
            End_Rendezvous;
         end Ask;
         Will_Wait ("select 0 accept Stop else");
         select
            accept Stop;
         else
            Wait_Is_Over;
         end select;
         Will_Wait ("select 0 accept Stop or delay 1");
         select
            accept Stop;
         or
            delay 0.001;
            Wait_Is_Over ("select 0 accept Stop or delay 0");
         end select;
         Will_Wait ("select 0 accept Ask 1 or terminate");
         Stages.Reach (7);
         loop
            select
               accept Ask (1) do
                  Stages.Reach (9);
                  Stages.Await (10);
                  Begin_Rendezvous (Ask'Caller);
                  End_Rendezvous;
               end Ask;
               Will_Wait ("select 0 accept Ask 1 or terminate");
            or
               terminate;
            end select;
         end loop;
      end Server;

      --  Has a dependent that waits at a terminate alternative, and is aborted with it.
      task body Owner is
         Up : constant Boolean := Is_Up ("Owner", Stage => 2);
         pragma Unreferenced (Up);
      begin
         Stages.Await (5);
         Create_Task ("Inner", Under => "Owner", Entries => "Call");
         Activate_Tasks ("Inner");
         declare
            task Inner is
               entry Call;
            end Inner;

            task body Inner is
               Last : Last_Wait;
               Up   : constant Boolean := Is_Up ("Inner", Stage => 5);

               --  Owner, the activator, goes on only after this.
               function Announce return Boolean is
               begin
                  Will_Wait ("select 0 accept Call or terminate");
                  return True;
               end Announce;

               Is_Announced : constant Boolean := Announce;
               pragma Unreferenced (Last, Up, Is_Announced);
            begin
               select
                  accept Call;
               or
                  terminate;
               end select;
            end Inner;
         begin
            Will_Call ("Server", "Ask 2");
            Server.Ask (2);
            delay 60.0;
            Inner.Call;
         end;
      end Owner;

      --  Aborts itself, while it holds the lock.
      task body Selfish is
         Up : constant Boolean := Is_Up ("Selfish", Stage => 3);
         pragma Unreferenced (Up);

         procedure Abort_Selfish is
         begin
            abort Selfish;
         end Abort_Selfish;

      begin
         Stages.Await (8);
         Abort_Tasks ("Selfish", Abort_Selfish'Access);
         Complete_Task;
      end Selfish;

      --  Is aborted when its rendezvous has begun, and isn't written yet.
      task body Doomed is
         Up : constant Boolean := Is_Up ("Doomed", Stage => 4);
         pragma Unreferenced (Up);
      begin
         Stages.Await (8);
         Will_Call ("Server", "Ask 1");
         Server.Ask (1);
      end Doomed;

      procedure Abort_Doomed is
      begin
         abort Doomed;
      end Abort_Doomed;

      --  Under the lock: what another task has to write waits until this is over.
      procedure Abort_Owner is
      begin
         abort Owner;
         Stages.Reach (8);
         delay 0.1;
         Note (not Selfish'Terminated, "a task wrote a line while another one aborted");
      end Abort_Owner;

   begin
      Stages.Await (7);
      Abort_Tasks ("Owner", Abort_Owner'Access);
      while not Owner'Terminated loop
         delay 0.001;
      end loop;
      while not Selfish'Terminated loop
         delay 0.001;
      end loop;
      Stages.Await (9);
      Dump;
      Abort_Tasks ("Doomed", Abort_Doomed'Access);
      Dump;
      Stages.Reach (10);
      Will_Call ("Server", "Stop", Timed, 0.010);
      select
         Server.Stop;
      or
         delay 0.010;
         Call_Is_Over;
      end select;
      Will_Call ("Owner", "Stop", Conditional);
      Call_Is_Over;
      Close_Block;
   end Run;

begin
   Open (Argument (1));
   Open_Block ("B");
   Create_Task ("Server", "B", "Ask 1 2 Stop");
   Create_Task ("Owner", "B", "Stop");
   Create_Task ("Selfish", "B");
   Create_Task ("Doomed", "B");
   Activate_Tasks ("Server Owner Selfish Doomed");
   Run;
   Try_Name ("", "an empty name");
   Try_Name ("1st", "a digit in front");
   Try_Name ("A.B", "a point");
   Try_Name ("Seventeen_letters", "a name of 17 characters");
   Try_Statement ("select 0 " & (1 .. 190 => 'x'), "a line of more than 200 characters");
   Try_Announced ((1 .. 192 => 'x'), "an announced line of more than 197 characters");
   Will_Wait ((1 .. 191 => 'x'));
   Dump;
   Complete_Task;
   Dump;
   Close;
   Create_Task ("Later");
   Put_Line (Passed'Image (2 .. Passed'Image'Last) & " passed," & Failed'Image & " failed");
   Set_Exit_Status (if Failed = 0 then 0 else 1);
end Trace_Lines;
