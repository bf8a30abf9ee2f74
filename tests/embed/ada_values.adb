--  SPDX-License-Identifier: MIT
--  Asks bad values of the Ada package: each is answered by its name, as a result and as an exception, and the kernel
--  stays as it was. Then asks for what is there. Prints what fails; the last line is 'N passed, M failed'.

with Ada.Command_Line;
with Ada.Text_IO; use Ada.Text_IO;
with Ada.Unchecked_Conversion;
with Adatask;     use Adatask;
with Interfaces;  use Interfaces;

procedure Ada_Values is

   K : Kernel;

   Passed, Failed : Natural := 0;

   procedure Note (Is_Right : Boolean; What : String) is
   begin
      if Is_Right then
         Passed := Passed + 1;
      else
         Failed := Failed + 1;
         Put_Line ("FAILED: " & What);
      end if;
   end Note;

   --  One bad value; the result of the operation goes to At_Position.
   type Asking is access procedure (Said : access Answer);
   At_Position : Position := 0;

   procedure Try_Result (Ask : Asking; Wanted : Answer; What : String) is
      Said   : aliased Answer := Accepted;
      Before : constant Position := Events (K);
   begin
      At_Position := 77;
      Ask (Said'Access);
      Note (Said = Wanted and then At_Position = 0 and then Events (K) = Before, What & ": " & Said'Image);
   exception
      when others =>
         Note (False, What & " raises an exception though a result was asked for");
   end Try_Result;

   procedure Try_Exception (Ask : Asking; Wanted : Answer; What : String) is
      Before : constant Position := Events (K);
   begin
      Ask (null);
      Note (False, What & " raises nothing");
   exception
      when Occurrence : Refused =>
         Note (Answer_Of (Occurrence) = Wanted and then Events (K) = Before,
               What & " raises " & Answer_Of (Occurrence)'Image);
   end Try_Exception;

   procedure Bad (Wanted : Answer; What : String; Ask : Asking) is
   begin
      Try_Result (Ask, Wanted, What);
      Try_Exception (Ask, Wanted, What);
   end Bad;

   --  An operation of which the result isn't a position has answered False or 0.
   procedure Take (Is_Nothing : Boolean) is
   begin
      At_Position := (if Is_Nothing then 0 else 99);
   end Take;

   Many  : constant Task_Number := 65_536;     --  more than any task has
   Far   : constant Position := 2 ** 32;       --  more than any position
   E     : constant Entry_Name := (Family => 0, Index => 0);
   Main  : constant Master := (A_Body, Main_Program);
   Open_E : constant Choice := (Item => E, Is_Open => True);
   Soon  : constant Delay_Alternative := (Length => 5, Is_Open => True);
   None  : constant Task_List (1 .. 0) := (others => 0);

   function To_Call_Kind is new Ada.Unchecked_Conversion (Unsigned_32, Call_Kind);
   function To_Last_Part is new Ada.Unchecked_Conversion (Unsigned_32, Last_Part);
   No_Call_Kind : constant Call_Kind := To_Call_Kind (3);
   No_Last_Part : constant Last_Part := To_Last_Part (5);

   ---------------------
   --  Bad requests  --
   ---------------------

   procedure Unknown_Asker (Said : access Answer) is
   begin
      At_Position := Open_Block (K, 65_535, Said);
   end Unknown_Asker;

   procedure Far_Asker (Said : access Answer) is
   begin
      At_Position := Open_Block (K, Many, Said);
   end Far_Asker;

   procedure Foreign_Master (Said : access Answer) is
   begin
      At_Position := Create_Task (K, 0, (A_Block, Far - 1), Said => Said);
   end Foreign_Master;

   procedure Far_Master (Said : access Answer) is
   begin
      At_Position := Create_Task (K, 0, (A_Block, Far), Said => Said);
   end Far_Master;

   procedure Many_Families (Said : access Answer) is
   begin
      At_Position := Create_Task (K, 0, Main, Family_List'(0 .. 16 => Single_Entry), Said);
   end Many_Families;

   procedure No_Tasks (Said : access Answer) is
   begin
      At_Position := Activate_Tasks (K, 0, None, Said);
   end No_Tasks;

   procedure Many_Tasks (Said : access Answer) is
   begin
      At_Position := Activate_Tasks (K, 0, Task_List'(0 .. 256 => 1), Said);
   end Many_Tasks;

   procedure Started_Task (Said : access Answer) is
   begin
      At_Position := Activate_Tasks (K, 0, (0 => 1), Said);
   end Started_Task;

   procedure Up_Again (Said : access Answer) is
   begin
      At_Position := End_Activation (K, 1, Said => Said);
   end Up_Again;

   procedure Call_Of_No_Kind (Said : access Answer) is
   begin
      At_Position := Call_Entry (K, 0, 1, E, No_Call_Kind, Said => Said);
   end Call_Of_No_Kind;

   procedure Call_Of_No_Family (Said : access Answer) is
   begin
      At_Position := Call_Entry (K, 0, 1, (Family => 1, Index => 0), Said => Said);
   end Call_Of_No_Family;

   procedure Call_Of_Far_Family (Said : access Answer) is
   begin
      At_Position := Call_Entry (K, 0, 1, (Family => 256, Index => 0), Said => Said);
   end Call_Of_Far_Family;

   procedure Call_Outside (Said : access Answer) is
   begin
      At_Position := Call_Entry (K, 0, 1, (Family => 0, Index => -1), Said => Said);
   end Call_Outside;

   procedure Call_Too_Long (Said : access Answer) is
   begin
      At_Position := Call_Entry (K, 0, 1, E, Timed, Milliseconds'Last, Said);
   end Call_Too_Long;

   procedure No_Choices (Said : access Answer) is
   begin
      At_Position := Selective_Wait (K, 1, Choice_List'(1 .. 0 => Open_E), Said => Said);
   end No_Choices;

   procedure Many_Choices (Said : access Answer) is
   begin
      At_Position := Selective_Wait (K, 1, Choice_List'(0 .. 16 => Open_E), Said => Said);
   end Many_Choices;

   procedure No_Delay (Said : access Answer) is
   begin
      At_Position := Selective_Wait (K, 1, (0 => Open_E), Delays, Said => Said);
   end No_Delay;

   procedure Delay_And_Else (Said : access Answer) is
   begin
      At_Position := Selective_Wait (K, 1, (0 => Open_E), Else_Part, (0 => Soon), Said => Said);
   end Delay_And_Else;

   procedure Part_Of_No_Kind (Said : access Answer) is
   begin
      At_Position := Selective_Wait (K, 1, (0 => Open_E), No_Last_Part, Said => Said);
   end Part_Of_No_Kind;

   procedure Accept_Of_No_Family (Said : access Answer) is
   begin
      At_Position := Accept_Call (K, 1, (Family => 7, Index => 0), Said);
   end Accept_Of_No_Family;

   procedure Far_Delay (Said : access Answer) is
   begin
      At_Position := Delay_For (K, 1, 9_000_000_000_001, Said);
   end Far_Delay;

   procedure End_Of_None (Said : access Answer) is
   begin
      At_Position := End_Rendezvous (K, 1, Said => Said);
   end End_Of_None;

   procedure Close_Of_None (Said : access Answer) is
   begin
      At_Position := Close_Block (K, 1, Said);
   end Close_Of_None;

   procedure Far_Complete (Said : access Answer) is
   begin
      At_Position := Complete_Task (K, Many, Said);
   end Far_Complete;

   procedure Abort_Of_Main (Said : access Answer) is
   begin
      At_Position := Abort_Tasks (K, 0, (0 => Main_Program), Said);
   end Abort_Of_Main;

   procedure Abort_Of_Many (Said : access Answer) is
   begin
      At_Position := Abort_Tasks (K, 0, Task_List'(0 .. 256 => 1), Said);
   end Abort_Of_Many;

   procedure Time_Back (Said : access Answer) is
   begin
      At_Position := Tick (K, -1, Said);
   end Time_Back;

   procedure Try_Requests is
   begin
      Bad (Unknown_Task, "a task that isn't there", Unknown_Asker'Access);
      Bad (Out_Of_Range, "a task beyond all", Far_Asker'Access);
      Bad (Not_Your_Master, "a block that isn't there", Foreign_Master'Access);
      Bad (Out_Of_Range, "a block beyond all", Far_Master'Access);
      Bad (Too_Long, "17 families", Many_Families'Access);
      Bad (Empty_List, "an activation of none", No_Tasks'Access);
      Bad (Too_Long, "an activation of 257", Many_Tasks'Access);
      Bad (Not_Your_Task, "a second activation", Started_Task'Access);
      Bad (Not_Activating, "a second end of an activation", Up_Again'Access);
      Bad (No_Such_Kind, "a call of no kind", Call_Of_No_Kind'Access);
      Bad (No_Such_Family, "a call of no family", Call_Of_No_Family'Access);
      Bad (Out_Of_Range, "a call of a family beyond all", Call_Of_Far_Family'Access);
      Bad (Breaks_Constraint, "a call outside of a family", Call_Outside'Access);
      Bad (Moment_Too_Large, "a call for too long", Call_Too_Long'Access);
      Bad (No_Accept, "a wait for nothing", No_Choices'Access);
      Bad (Too_Long, "17 choices", Many_Choices'Access);
      Bad (Empty_List, "a wait with delays, and none", No_Delay'Access);
      Bad (Too_Long, "an else part with a delay", Delay_And_Else'Access);
      Bad (No_Such_Kind, "a last part of no kind", Part_Of_No_Kind'Access);
      Bad (No_Such_Family, "an accept of no family", Accept_Of_No_Family'Access);
      Bad (Moment_Too_Large, "a delay for too long", Far_Delay'Access);
      Bad (Not_In_Accept, "an end of no rendezvous", End_Of_None'Access);
      Bad (No_Block, "a close of no block", Close_Of_None'Access);
      Bad (Out_Of_Range, "a completion of a task beyond all", Far_Complete'Access);
      Bad (Main_Task, "an abort of the main program", Abort_Of_Main'Access);
      Bad (Too_Long, "an abort of 257", Abort_Of_Many'Access);
      Bad (Moment_Back, "a moment below 0", Time_Back'Access);
   end Try_Requests;

   ----------------------
   --  Bad questions  --
   ----------------------

   procedure Ask_Running (Said : access Answer) is
   begin
      Take (not Running (K, 2, Said));
   end Ask_Running;

   procedure Ask_Callable (Said : access Answer) is
   begin
      Take (not Callable (K, Many, Said));
   end Ask_Callable;

   procedure Ask_Terminated (Said : access Answer) is
   begin
      Take (not Terminated (K, 2, Said));
   end Ask_Terminated;

   procedure Ask_Count (Said : access Answer) is
   begin
      Take (Count_Of (K, 1, (Family => 0, Index => 1), Said) = 0);
   end Ask_Count;

   procedure Ask_Slot (Said : access Answer) is
   begin
      Take (Slot (K, 1, (Family => 1, Index => 0), Said) = 0);
   end Ask_Slot;

   procedure Ask_Outcome (Said : access Answer) is
   begin
      Take (Outcome_Of (K, 2, Said) = (Did_Nothing, 0, 0, Nobody));
   end Ask_Outcome;

   procedure Ask_Reason (Said : access Answer) is
   begin
      Take (Reason_Of (K, 2, Said) = (Goes_On, 0));
   end Ask_Reason;

   procedure Ask_Awaited (Said : access Answer) is
   begin
      Take (Awaited (K, 2, Said => Said) = 0);
   end Ask_Awaited;

   procedure Ask_Awaited_By_None (Said : access Answer) is
   begin
      Take (Awaited (K, 1, Said => Said) = 0);
   end Ask_Awaited_By_None;

   --  From task 2 on there is none.
   procedure Ask_Runnable (Said : access Answer) is
   begin
      Take (Runnable (K, 2, Said) = 0);
   end Ask_Runnable;

   procedure Ask_Next_Due (Said : access Answer) is
   begin
      Take (Next_Due (K, Said) = 0);
   end Ask_Next_Due;

   procedure Ask_Event (Said : access Answer) is
   begin
      Take (Event_At (K, 5, Said) = (others => <>));
   end Ask_Event;

   procedure Ask_Far_Event (Said : access Answer) is
   begin
      Take (Event_At (K, Far, Said) = (others => <>));
   end Ask_Far_Event;

   procedure Ask_Lengths (Said : access Answer) is
   begin
      Take (Lengths_At (K, 0, Said) = (others => <>));
   end Ask_Lengths;

   procedure Ask_Task (Said : access Answer) is
   begin
      Take (Task_At (K, 2, 1, Said) = 0);
   end Ask_Task;

   procedure Ask_Family (Said : access Answer) is
   begin
      Take (Family_At (K, 1, 1, Said) = (0, 0));
   end Ask_Family;

   procedure Ask_Choice (Said : access Answer) is
   begin
      Take (Choice_At (K, 1, 0, Said) = (E, False));
   end Ask_Choice;

   procedure Ask_Delay (Said : access Answer) is
   begin
      Take (Delay_At (K, 1, 0, Said) = (0, False));
   end Ask_Delay;

   procedure Try_Questions is
   begin
      Bad (No_Such_Task, "whether no task runs", Ask_Running'Access);
      Bad (Out_Of_Range, "CALLABLE of a task beyond all", Ask_Callable'Access);
      Bad (No_Such_Task, "TERMINATED of no task", Ask_Terminated'Access);
      Bad (Breaks_Constraint, "COUNT outside of a family", Ask_Count'Access);
      Bad (No_Such_Entry, "the slot of no entry", Ask_Slot'Access);
      Bad (No_Such_Task, "the outcome of no task", Ask_Outcome'Access);
      Bad (No_Such_Task, "the reason of no task", Ask_Reason'Access);
      Bad (No_Such_Task, "whom no task awaits", Ask_Awaited'Access);
      Bad (No_Such_Item, "whom a running task awaits", Ask_Awaited_By_None'Access);
      Bad (No_Such_Item, "who runs beyond all tasks", Ask_Runnable'Access);
      Bad (No_Such_Item, "what is due when nothing is", Ask_Next_Due'Access);
      Bad (No_Such_Event, "the event after the last one", Ask_Event'Access);
      Bad (Out_Of_Range, "an event beyond all", Ask_Far_Event'Access);
      Bad (No_Such_Event, "the lists of event 0", Ask_Lengths'Access);
      Bad (No_Such_Item, "a second task of one", Ask_Task'Access);
      Bad (No_Such_Item, "a second family of one", Ask_Family'Access);
      Bad (No_Such_Item, "a choice of a creation", Ask_Choice'Access);
      Bad (No_Such_Item, "a delay of a creation", Ask_Delay'Access);
   end Try_Questions;

   --  Without a kernel there is nothing, and each operation says so.
   procedure Ask_No_Board (Said : access Answer) is
   begin
      Take (Board_Of (K, Said) = (others => <>));
   end Ask_No_Board;

   procedure Try_No_Kernel is
   begin
      Drop (K);
      Bad (No_Kernel, "a request without a kernel", Up_Again'Access);
      Bad (No_Kernel, "a list without a kernel", No_Tasks'Access);
      Bad (No_Kernel, "a question without a kernel", Ask_Event'Access);
      Bad (No_Kernel, "a board without a kernel", Ask_No_Board'Access);
      Note (Tasks (K) = 0 and then Events (K) = 0 and then not Finished (K), "without a kernel there is something");
      Drop (K);
      Renew (K);
      Note (Tasks (K) = 1 and then Events (K) = 0, "a new kernel isn't empty");
   end Try_No_Kernel;

begin
   Note (Create_Task (K, 0, Main, (0 => Single_Entry)) = 1, "the position of the first event");
   Note (Activate_Tasks (K, 0, (0 => 1)) = 2, "the position of a start");
   Note (End_Activation (K, 1) = 3 and then Events (K) = 4, "the position of the end of an activation");
   Try_Requests;
   Try_Questions;
   Try_No_Kernel;
   Put_Line (Passed'Image (2 .. Passed'Image'Last) & " passed," & Failed'Image & " failed");
   Ada.Command_Line.Set_Exit_Status (if Failed = 0 then 0 else 1);
end Ada_Values;
