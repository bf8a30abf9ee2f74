--  SPDX-License-Identifier: MIT
--  Plays one journal by the Ada package, and asks after each request for what the rules give then (docs/RULES.md). Each
--  kind of request and each question is among them. Then the same with a kernel that lives on, and what only that does.
--  Prints what fails; the last line is 'N passed, M failed'.

with Ada.Command_Line;
with Ada.Text_IO; use Ada.Text_IO;
with Adatask;     use Adatask;
with Interfaces;  use Interfaces;

procedure Ada_Answers is

   K : Kernel;

   --  Whether the kernel lives on.
   Is_Lasting : Boolean := False;

   Passed, Failed : Natural := 0;

   procedure Note (Is_Right : Boolean; What : String) is
   begin
      if Is_Right then
         Passed := Passed + 1;
      else
         Failed := Failed + 1;
         Put_Line ("FAILED: " & What);
      end if;
   end Note;

   Said : aliased Answer;

   --  The question that was asked with Said has found nothing.
   procedure Note_None (Is_Nothing : Boolean; What : String) is
   begin
      Note (Is_Nothing and then Said = No_Such_Item, What & ": " & Said'Image);
   end Note_None;

   Server : constant Task_Number := 1;
   Client : constant Task_Number := 2;
   Single : constant Entry_Name := (Family => 0, Index => 0);
   Second : constant Entry_Name := (Family => 1, Index => 2);  --  of the family 1 .. 3

   procedure Make is
   begin
      Note (Create_Task (K, 0, (A_Body, 0), (Single_Entry, (Low => 1, High => 3))) = 1, "event 1");
      Note (Family_At (K, 1, 1) = (1, 3) and then Lengths_At (K, 1).Families = 2, "the families of event 1");
      Note (Open_Block (K, 0) = 2 and then Under_Of (Event_At (K, 2)) = (A_Body, 0), "event 2");
      Note (Create_Task (K, 0, (A_Block, 2)) = 3 and then Tasks (K) = 3, "event 3");
      Note (Master_Of (Event_At (K, 3)) = (A_Block, 2) and then Under_Of (Event_At (K, 3)) = (A_Block, 2),
            "the masters of event 3");
      Note (Reason_Of (K, Client) = (Not_Started, 0) and then Awaited (K, Client) = 0, "a task that isn't started");
   end Make;

   procedure Activate is
   begin
      Note (Activate_Tasks (K, 0, (Server, Client)) = 4 and then Task_At (K, 4, 1) = Client, "event 4");
      Note (Runnable (K) = Server and then Runnable (K, 2) = Client, "who runs after event 4");
      Note (Reason_Of (K, 0) = (Activating, 4) and then Awaited (K, 0) = Server, "why main waits after event 4");
      Note (End_Activation (K, Server) = 5 and then Awaited (K, 0) = Client, "event 5");
      Note_None (Awaited (K, 0, From => 3, Said => Said'Access) = 0, "whom main awaits from task 3 on");
      Note (End_Activation (K, Client) = 6 and then Events (K) = 7, "event 6");
      Note (Event_At (K, 7).Kind = Activated and then Event_At (K, 7).At_Position = 4 and then Is_Ok (Event_At (K, 7)),
            "event 7");
      Note (Runnable (K) = 0 and then Outcome_Of (K, 0).Kind = Activation_Ok and then Running (K, 0), "main after it");
   end Activate;

   procedure Call is
      Now : Event;
   begin
      Note (Call_Entry (K, Client, Server, Second, Timed, 30) = 8 and then not Goes_On (K), "event 8");
      Now := Event_At (K, 8);
      Note (Now.Kind = Called and then Now.By = Client and then Now.Callee = Server and then Now.Item = Second
            and then Call_Kind_Of (Now) = Timed and then Boolean (Now.Is_Timed) and then Now.Moment = 30
            and then Now.Length = 30, "what event 8 says");
      Note (Reason_Of (K, Client) = (Queued, 8) and then Awaited (K, Client) = Server, "why the client waits");
      Note (Count_Of (K, Server, Second) = 1 and then Queue_Length (K, Server, Second) = 1, "the queue");
      Note (Is_Lasting or else Slot (K, Server, Second) = 2, "its slot");
      Note (Next_Due (K) = 30, "what is due after event 8");
   end Call;

   procedure Wait is
      Now : Event;
   begin
      Note (Selective_Wait
              (K, Server, ((Single, True), (Second, False)), Delays, ((20, True), (5, False)), Pick => 7) = 9,
            "event 9");
      Now := Event_At (K, 9);
      Note (Now.Kind = Waiting and then Now.Number = 7 and then Last_Part_Of (Now) = Delays, "what event 9 says");
      Note (Lengths_At (K, 9) = (0, 0, 2, 2) and then Choice_At (K, 9, 1) = (Second, False), "the choices of event 9");
      Note (Delay_At (K, 9, 0) = (20, True) and then Delay_At (K, 9, 1) = (0, False), "the delays of event 9");
      Note (Reason_Of (K, Server) = (In_Wait, 9) and then Next_Due (K) = 20, "why the server waits");
      Note_None (Awaited (K, Server, Said => Said'Access) = 0, "whom the server awaits");
      Note (Tick (K, 20) = 10 and then Event_At (K, 10).Moment = 20, "event 10");
      Now := Event_At (K, 11);
      Note (Now.Kind = Adatask.Passed and then Now.At_Position = 9 and then Way_Of (Now) = By_Delay, "event 11");
      Note (Outcome_Of (K, Server) = (Took_Delay, 0, 0, Nobody) and then Runnable (K) = Server,
            "the server after event 11");
   end Wait;

   --  The events from event 12 on, in a list with room for as many, for one, and for none.
   procedure List_Events is
      Room  : Event_List (1 .. 3);
      Count : Natural := 7;
   begin
      Events_From (K, 12, Room, Count);
      Note (Count = 2 and then Room (1).Kind = Waiting and then Room (2).Kind = Met and then Room (3).Kind = No_Event,
            "events 12 and 13 at once");
      Events_From (K, 12, Room (3 .. 3), Count);
      Note (Count = 1 and then Room (3).Kind = Waiting, "event 12 alone");
      Events_From (K, 12, Room (3 .. 2), Count);
      Note (Count = 0, "no room for events");
      Events_From (K, 14, Room, Count);
      Note (Count = 0 and then Room (1).Kind = Waiting, "no events yet");
   end List_Events;

   procedure Meet is
   begin
      Note (Accept_Call (K, Server, Second) = 12 and then Event_At (K, 13).Kind = Met and then Goes_On (K), "event 12");
      List_Events;
      Note (Event_At (K, 13).Call = 8 and then Event_At (K, 13).At_Position = 12, "event 13");
      Note (Outcome_Of (K, Server) = (Has_Accepted, 0, 8, Client), "the server after event 13");
      Note (Reason_Of (K, Client) = (In_Rendezvous, 8), "why the client waits in its rendezvous");
      Note_None (Runnable (K, Said => Said'Access) = 0, "who runs after event 13 and didn't before");
      Note_None (Next_Due (K, Said'Access) = 0, "what is due after event 13");
      Note (End_Rendezvous (K, Server, Raised => True) = 14 and then Is_Raised (Event_At (K, 14)), "event 14");
      Note (Outcome_Of (K, Client).Kind = Got_Exception and then Runnable (K) = Client, "the client after event 14");
   end Meet;

   procedure Leave is
   begin
      Note (Delay_For (K, Client, 10) = 15 and then Event_At (K, 15).Moment = 30, "event 15");
      Note (Reason_Of (K, Client) = (Delayed, 15) and then Next_Due (K) = 30, "why the client waits in its delay");
      Note (Close_Block (K, 0) = 16 and then Event_At (K, 16).At_Position = 2, "event 16");
      Note (Reason_Of (K, 0) = (Leaving, 16) and then Awaited (K, 0) = Client, "why main waits at its block");
      Note (Abort_Tasks (K, Server, (0 => Client)) = 17 and then Event_At (K, 18).Kind = Halted, "event 17");
      Note (Event_At (K, 19).Kind = Gone and then Event_At (K, 20).Kind = Left, "events 19 and 20");
      Note (Outcome_Of (K, 0).Kind = Left_Block and then Outcome_Of (K, Client).Kind = Is_Dead, "after event 20");
      Note (not Callable (K, Client) and then Terminated (K, Client) and then Callable (K, Server), "attributes");
   end Leave;

   procedure Try is
   begin
      Note (Selective_Wait (K, Server, (0 => (Single, True)), Else_Part) = 21, "event 21");
      Note (Way_Of (Event_At (K, 22)) = By_Else and then Outcome_Of (K, Server).Kind = Took_Else, "event 22");
      Note (Call_Entry (K, 0, Server, Single, Conditional) = 23, "event 23");
      Note (Event_At (K, 24).Kind = Cancelled and then Outcome_Of (K, 0).Kind = Was_Cancelled, "event 24");
      Note (Call_Entry (K, 0, Server, Single, Timed, 7) = 25, "event 25");
   end Try;

   --  The call of main is queued, at the first of four slots; the client is terminated.
   procedure Show is
      Now : constant Board := Board_Of (K);
   begin
      Note (Now.Events = 25 and then Now.Tasks = 3 and then Now.Slots = 4, "the numbers of the board");
      Note (Now.Counts (0 .. 4) = (1, 0, 0, 0, 0), "the queues of the board");
      Note (Now.Callable (0 .. 3) = (True, True, False, False), "CALLABLE on the board");
      Note (Now.Terminated (0 .. 3) = (False, False, True, False), "TERMINATED on the board");
   end Show;

   procedure Finish is
   begin
      Note (Tick (K, 27) = 26 and then Event_At (K, 27).Kind = Cancelled, "event 26");
      Note (Selective_Wait (K, Server, (0 => (Single, True)), Terminate_Alternative) = 28, "event 28");
      Note (not Finished (K) and then Complete_Task (K, 0) = 29, "event 29");
      Note (Event_At (K, 30).Kind = Quit and then Master_Of (Event_At (K, 30)) = (A_Body, 0), "event 30");
      Note (Event_At (K, 31).Kind = Gone and then Finished (K) and then Events (K) = 31, "event 31");
   end Finish;

   procedure Play is
   begin
      Make;
      Activate;
      Call;
      Wait;
      Meet;
      Leave;
      Try;
      if not Is_Lasting then
         Show;
      end if;
      Finish;
   end Play;

   --  The question that was asked with Said was answered so.
   procedure Note_Answer (Wanted : Answer; What : String) is
   begin
      Note (Said = Wanted, What & ": " & Said'Image);
   end Note_Answer;

   --  The client is terminated, and given up. The main program is delayed at moment 100 of the clock until 105.
   procedure Live_On is
   begin
      Note (Ended_Task (K) = Main_Program and then Ended_Task (K, From => 1) = Server, "who is terminated by event 31");
      Note_None (Ended_Task (K, From => 2, Said => Said'Access) = 0, "who was terminated before");
      Release (K, Client);
      Note (not Running (K, Client, Said'Access), "a task that was given up");
      Note_Answer (Given_Up, "a question about it");
      Note (Event_At (K, 31, Said'Access).Kind = No_Event, "an event after a release");
      Note_Answer (Given_Up, "a question about that");
      Release (K, Main_Program, Said'Access);
      Note_Answer (Main_Task, "a release of the main program");
      Note (Board_Of (K, Said'Access).Tasks = 0, "a board of a kernel that lives on");
      Note_Answer (Lives_On, "a question for a board");
      Compact (K);
      Note (Tasks (K) = 3 and then Events (K) = 31, "the numbers after a compaction");
      Renew_Lasting (K, Threshold => 100);
      Set_Clock (K, 100);
      Note (Delay_For (K, Main_Program, 5) = 1 and then Next_Due (K) = 105, "a delay at a moment of the clock");
   end Live_On;

   --  What only a kernel that lives on does.
   procedure Keep_All is
   begin
      Note (Ended_Task (K, Said => Said'Access) = 0, "who is terminated where all is kept");
      Note_Answer (Keeps_All, "a question for that");
      Release (K, Client, Said'Access);
      Note_Answer (Keeps_All, "a release where all is kept");
      Compact (K, Said'Access);
      Note_Answer (Keeps_All, "a compaction where all is kept");
      Set_Clock (K, 100);
      Note (Tick (K, 100, Said'Access) = 32 and then Open_Block (K, Main_Program, Said'Access) = 0, "a clock");
      Note_Answer (Keeps_All, "a request with a clock where all is kept");
   end Keep_All;

begin
   Play;
   Keep_All;
   Renew_Lasting (K);
   Is_Lasting := True;
   Play;
   Live_On;
   Put_Line (Passed'Image (2 .. Passed'Image'Last) & " passed," & Failed'Image & " failed");
   Ada.Command_Line.Set_Exit_Status (if Failed = 0 then 0 else 1);
end Ada_Answers;
