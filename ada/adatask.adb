--  SPDX-License-Identifier: MIT
--  Each operation passes its parameters to one export of the library, if there is a kernel, and settles the answer.

with Interfaces.C; use Interfaces.C;

package body Adatask is

   use Interfaces;
   use type System.Address;

   --  Where the list pointer of an empty list points, since it must not be null.
   Nowhere : aliased constant Unsigned_64 := 0;

   -------------------
   --  The exports  --
   -------------------

   function C_Kernel_New (K : in out Handle) return Answer
     with Import, Convention => C, External_Name => "adatask_kernel_new";
   function C_Kernel_New_Lasting (Threshold : Event_Count; K : in out Handle) return Answer
     with Import, Convention => C, External_Name => "adatask_kernel_new_lasting";
   procedure C_Kernel_Drop (K : Handle)
     with Import, Convention => C, External_Name => "adatask_kernel_drop";
   function C_Release (K : in out Handle; T : Task_Number) return Answer
     with Import, Convention => C, External_Name => "adatask_release";
   function C_Compact (K : in out Handle) return Answer
     with Import, Convention => C, External_Name => "adatask_compact";
   function C_Open
     (K : in out Handle; Now : Milliseconds; By : Task_Number; At_Position : in out Position;
      Runs : in out Unsigned_32) return Answer
     with Import, Convention => C, External_Name => "adatask_open";
   function C_Create
     (K : in out Handle; Now : Milliseconds; By : Task_Number; Kind : Master_Kind; Master : Unsigned_64;
      Families : System.Address; Count : size_t; At_Position : in out Position; Runs : in out Unsigned_32) return Answer
     with Import, Convention => C, External_Name => "adatask_create";
   function C_Activate
     (K : in out Handle; Now : Milliseconds; By : Task_Number; Tasks : System.Address; Count : size_t;
      At_Position : in out Position; Runs : in out Unsigned_32) return Answer
     with Import, Convention => C, External_Name => "adatask_activate";
   function C_Elaborated
     (K : in out Handle; Now : Milliseconds; By : Task_Number; Ok : Unsigned_32;
      At_Position : in out Position; Runs : in out Unsigned_32) return Answer
     with Import, Convention => C, External_Name => "adatask_elaborated";
   function C_Call
     (K : in out Handle; Now : Milliseconds; By, Callee : Task_Number; Family : Family_Number; Index : Entry_Index;
      Kind : Call_Kind; Length : Milliseconds; At_Position : in out Position; Runs : in out Unsigned_32) return Answer
     with Import, Convention => C, External_Name => "adatask_call";
   function C_Wait
     (K : in out Handle; Now : Milliseconds; By : Task_Number; Choices : System.Address; Count : size_t;
      Last : Last_Part; Delays : System.Address; Delay_Count : size_t; Pick : Pick_Number;
      At_Position : in out Position; Runs : in out Unsigned_32) return Answer
     with Import, Convention => C, External_Name => "adatask_wait";
   function C_Delay_Task
     (K : in out Handle; Now : Milliseconds; By : Task_Number; Length : Milliseconds;
      At_Position : in out Position; Runs : in out Unsigned_32) return Answer
     with Import, Convention => C, External_Name => "adatask_delay";
   function C_End_Accept
     (K : in out Handle; Now : Milliseconds; By : Task_Number; Raised : Unsigned_32;
      At_Position : in out Position; Runs : in out Unsigned_32) return Answer
     with Import, Convention => C, External_Name => "adatask_end";
   function C_Close
     (K : in out Handle; Now : Milliseconds; By : Task_Number; At_Position : in out Position;
      Runs : in out Unsigned_32) return Answer
     with Import, Convention => C, External_Name => "adatask_close";
   function C_Complete
     (K : in out Handle; Now : Milliseconds; By : Task_Number; At_Position : in out Position;
      Runs : in out Unsigned_32) return Answer
     with Import, Convention => C, External_Name => "adatask_complete";
   function C_Abort_All
     (K : in out Handle; Now : Milliseconds; By : Task_Number; Tasks : System.Address; Count : size_t;
      At_Position : in out Position; Runs : in out Unsigned_32) return Answer
     with Import, Convention => C, External_Name => "adatask_abort";
   function C_Tick (K : in out Handle; Now, Moment : Milliseconds; At_Position : in out Position) return Answer
     with Import, Convention => C, External_Name => "adatask_tick";
   function C_Tasks (K : in out Handle) return Task_Number
     with Import, Convention => C, External_Name => "adatask_tasks";
   function C_Events (K : in out Handle) return Position
     with Import, Convention => C, External_Name => "adatask_events";
   function C_Finished (K : in out Handle) return Unsigned_32
     with Import, Convention => C, External_Name => "adatask_finished";
   function C_Running (K : in out Handle; T : Task_Number; Yes : in out Unsigned_32) return Answer
     with Import, Convention => C, External_Name => "adatask_running";
   function C_Callable (K : in out Handle; T : Task_Number; Yes : in out Unsigned_32) return Answer
     with Import, Convention => C, External_Name => "adatask_callable";
   function C_Terminated (K : in out Handle; T : Task_Number; Yes : in out Unsigned_32) return Answer
     with Import, Convention => C, External_Name => "adatask_terminated";
   function C_Count
     (K : in out Handle; By : Task_Number; Family : Family_Number; Index : Entry_Index;
      Number : in out Unsigned_32) return Answer
     with Import, Convention => C, External_Name => "adatask_count";
   function C_Queued
     (K : in out Handle; T : Task_Number; Family : Family_Number; Index : Entry_Index;
      Number : in out Unsigned_32) return Answer
     with Import, Convention => C, External_Name => "adatask_queued";
   function C_Slot
     (K : in out Handle; T : Task_Number; Family : Family_Number; Index : Entry_Index;
      Number : in out Unsigned_32) return Answer
     with Import, Convention => C, External_Name => "adatask_slot";
   function C_Outcome_Of (K : in out Handle; T : Task_Number; Became : in out Outcome) return Answer
     with Import, Convention => C, External_Name => "adatask_outcome";
   function C_Reason_Of (K : in out Handle; T : Task_Number; Why : in out Reason) return Answer
     with Import, Convention => C, External_Name => "adatask_reason";
   function C_Awaited (K : in out Handle; T, From : Task_Number; Other : in out Task_Number) return Answer
     with Import, Convention => C, External_Name => "adatask_awaited";
   function C_Runnable (K : in out Handle; From : Task_Number; T : in out Task_Number) return Answer
     with Import, Convention => C, External_Name => "adatask_runnable";
   function C_Ended (K : in out Handle; From : Task_Number; T : in out Task_Number) return Answer
     with Import, Convention => C, External_Name => "adatask_ended";
   function C_Next_Due (K : in out Handle; Moment : in out Milliseconds) return Answer
     with Import, Convention => C, External_Name => "adatask_next_due";
   function C_Board_Of (K : in out Handle; Now : in out Board) return Answer
     with Import, Convention => C, External_Name => "adatask_board";
   function C_Event_At (K : in out Handle; At_Position : Position; E : in out Event) return Answer
     with Import, Convention => C, External_Name => "adatask_event";
   function C_Events_From (K : in out Handle; From : Position; List : System.Address; Room : size_t) return Unsigned_64
     with Import, Convention => C, External_Name => "adatask_events_from";
   function C_Lengths_At (K : in out Handle; At_Position : Position; Lengths : in out List_Lengths) return Answer
     with Import, Convention => C, External_Name => "adatask_lengths";
   function C_Task_At
     (K : in out Handle; At_Position : Position; At_Place : Unsigned_64; T : in out Task_Number) return Answer
     with Import, Convention => C, External_Name => "adatask_event_task";
   function C_Family_At
     (K : in out Handle; At_Position : Position; At_Place : Unsigned_64; Item : in out Family) return Answer
     with Import, Convention => C, External_Name => "adatask_event_family";
   function C_Choice_At
     (K : in out Handle; At_Position : Position; At_Place : Unsigned_64; Item : in out Choice) return Answer
     with Import, Convention => C, External_Name => "adatask_event_choice";
   function C_Delay_At
     (K : in out Handle; At_Position : Position; At_Place : Unsigned_64; Item : in out Due) return Answer
     with Import, Convention => C, External_Name => "adatask_event_delay";

   ---------------
   --  Answers  --
   ---------------

   function Is_There (K : Kernel) return Boolean is (K.Held.Kernel /= System.Null_Address);

   --  Where a list of a length begins.
   function Start (Where : System.Address; Length : Natural) return System.Address is
     (if Length = 0 then Nowhere'Address else Where);

   --  Tells the answer in the way that the caller chose.
   procedure Settle (Code : Answer; Said : access Answer) is
   begin
      if Said /= null then
         Said.all := Code;
      elsif Code /= Accepted then
         raise Refused with Answer'Image (Code);
      end if;
   end Settle;

   ---------------
   --  Kernels  --
   ---------------

   overriding procedure Initialize (K : in out Kernel) is
      Said : aliased Answer;
   begin
      Renew (K, Said'Access);
   end Initialize;

   overriding procedure Finalize (K : in out Kernel) is
   begin
      Drop (K);
   end Finalize;

   procedure Renew (K : in out Kernel; Said : access Answer := null) is
   begin
      Drop (K);
      Settle (C_Kernel_New (K.Held), Said);
   end Renew;

   procedure Renew_Lasting (K : in out Kernel; Threshold : Event_Count := 4_096; Said : access Answer := null) is
   begin
      Drop (K);
      Settle (C_Kernel_New_Lasting (Threshold, K.Held), Said);
   end Renew_Lasting;

   procedure Drop (K : in out Kernel) is
   begin
      if Is_There (K) then
         C_Kernel_Drop (K.Held);
         K.Held.Kernel := System.Null_Address;
      end if;
      K.Now := No_Clock;
      K.Runs := 0;
   end Drop;

   procedure Set_Clock (K : in out Kernel; Now : Milliseconds) is
   begin
      K.Now := Now;
   end Set_Clock;

   procedure Release (K : in out Kernel; T : Task_Number; Said : access Answer := null) is
   begin
      Settle ((if Is_There (K) then C_Release (K.Held, T) else No_Kernel), Said);
   end Release;

   procedure Compact (K : in out Kernel; Said : access Answer := null) is
   begin
      Settle ((if Is_There (K) then C_Compact (K.Held) else No_Kernel), Said);
   end Compact;

   ----------------
   --  Requests  --
   ----------------

   function Open_Block (K : in out Kernel; By : Task_Number; Said : access Answer := null) return Position is
      At_Position : Position := 0;
   begin
      Settle ((if Is_There (K) then C_Open (K.Held, K.Now, By, At_Position, K.Runs) else No_Kernel), Said);
      return At_Position;
   end Open_Block;

   function Create_Task
     (K : in out Kernel; By : Task_Number; On : Master; Entries : Family_List := No_Families;
      Said : access Answer := null) return Position
   is
      Number : constant Unsigned_64 :=
        (case On.Kind is
            when A_Body  => Unsigned_64 (On.Owner),
            when A_Block => Unsigned_64 (On.Opened_At));
      At_Position : Position := 0;
   begin
      Settle
        ((if Is_There (K)
          then C_Create
                 (K.Held, K.Now, By, On.Kind, Number, Start (Entries'Address, Entries'Length), Entries'Length,
                  At_Position, K.Runs)
          else No_Kernel), Said);
      return At_Position;
   end Create_Task;

   function Activate_Tasks
     (K : in out Kernel; By : Task_Number; Tasks : Task_List; Said : access Answer := null) return Position
   is
      At_Position : Position := 0;
   begin
      Settle
        ((if Is_There (K)
          then C_Activate (K.Held, K.Now, By, Start (Tasks'Address, Tasks'Length), Tasks'Length, At_Position, K.Runs)
          else No_Kernel), Said);
      return At_Position;
   end Activate_Tasks;

   function End_Activation
     (K : in out Kernel; By : Task_Number; Ok : Boolean := True; Said : access Answer := null) return Position
   is
      At_Position : Position := 0;
   begin
      Settle
        ((if Is_There (K)
          then C_Elaborated (K.Held, K.Now, By, Boolean'Pos (Ok), At_Position, K.Runs)
          else No_Kernel), Said);
      return At_Position;
   end End_Activation;

   function Call_Entry
     (K : in out Kernel; By, Callee : Task_Number; Item : Entry_Name; Kind : Call_Kind := Simple;
      Length : Milliseconds := 0; Said : access Answer := null) return Position
   is
      At_Position : Position := 0;
   begin
      Settle
        ((if Is_There (K)
          then C_Call (K.Held, K.Now, By, Callee, Item.Family, Item.Index, Kind, Length, At_Position, K.Runs)
          else No_Kernel), Said);
      return At_Position;
   end Call_Entry;

   function Accept_Call
     (K : in out Kernel; By : Task_Number; Item : Entry_Name; Said : access Answer := null) return Position
   is
   begin
      return Selective_Wait (K, By, (0 => (Item => Item, Is_Open => True)), Said => Said);
   end Accept_Call;

   function Selective_Wait
     (K : in out Kernel; By : Task_Number; Choices : Choice_List; Last : Last_Part := Nothing;
      Alternatives : Delay_List := No_Delays; Pick : Pick_Number := 0; Said : access Answer := null) return Position
   is
      At_Position : Position := 0;
   begin
      Settle
        ((if Is_There (K)
          then C_Wait (K.Held, K.Now, By, Start (Choices'Address, Choices'Length), Choices'Length, Last,
                 Start (Alternatives'Address, Alternatives'Length), Alternatives'Length, Pick, At_Position, K.Runs)
          else No_Kernel), Said);
      return At_Position;
   end Selective_Wait;

   function Delay_For
     (K : in out Kernel; By : Task_Number; Length : Milliseconds; Said : access Answer := null) return Position
   is
      At_Position : Position := 0;
   begin
      Settle
        ((if Is_There (K)
          then C_Delay_Task (K.Held, K.Now, By, Length, At_Position, K.Runs)
          else No_Kernel), Said);
      return At_Position;
   end Delay_For;

   function End_Rendezvous
     (K : in out Kernel; By : Task_Number; Raised : Boolean := False; Said : access Answer := null) return Position
   is
      At_Position : Position := 0;
   begin
      Settle
        ((if Is_There (K)
          then C_End_Accept (K.Held, K.Now, By, Boolean'Pos (Raised), At_Position, K.Runs)
          else No_Kernel), Said);
      return At_Position;
   end End_Rendezvous;

   function Close_Block (K : in out Kernel; By : Task_Number; Said : access Answer := null) return Position is
      At_Position : Position := 0;
   begin
      Settle ((if Is_There (K) then C_Close (K.Held, K.Now, By, At_Position, K.Runs) else No_Kernel), Said);
      return At_Position;
   end Close_Block;

   function Complete_Task (K : in out Kernel; By : Task_Number; Said : access Answer := null) return Position is
      At_Position : Position := 0;
   begin
      Settle ((if Is_There (K) then C_Complete (K.Held, K.Now, By, At_Position, K.Runs) else No_Kernel), Said);
      return At_Position;
   end Complete_Task;

   function Abort_Tasks
     (K : in out Kernel; By : Task_Number; Tasks : Task_List; Said : access Answer := null) return Position
   is
      At_Position : Position := 0;
   begin
      Settle
        ((if Is_There (K)
          then C_Abort_All (K.Held, K.Now, By, Start (Tasks'Address, Tasks'Length), Tasks'Length, At_Position, K.Runs)
          else No_Kernel), Said);
      return At_Position;
   end Abort_Tasks;

   function Tick (K : in out Kernel; Now : Milliseconds; Said : access Answer := null) return Position is
      At_Position : Position := 0;
   begin
      Settle ((if Is_There (K) then C_Tick (K.Held, No_Clock, Now, At_Position) else No_Kernel), Said);
      return At_Position;
   end Tick;

   -----------------
   --  Questions  --
   -----------------

   function Tasks (K : in out Kernel) return Task_Number is (if Is_There (K) then C_Tasks (K.Held) else 0);

   function Events (K : in out Kernel) return Position is (if Is_There (K) then C_Events (K.Held) else 0);

   function Finished (K : in out Kernel) return Boolean is (Is_There (K) and then C_Finished (K.Held) /= 0);

   function Running (K : in out Kernel; T : Task_Number; Said : access Answer := null) return Boolean is
      Yes : Unsigned_32 := 0;
   begin
      Settle ((if Is_There (K) then C_Running (K.Held, T, Yes) else No_Kernel), Said);
      return Yes /= 0;
   end Running;

   function Callable (K : in out Kernel; T : Task_Number; Said : access Answer := null) return Boolean is
      Yes : Unsigned_32 := 0;
   begin
      Settle ((if Is_There (K) then C_Callable (K.Held, T, Yes) else No_Kernel), Said);
      return Yes /= 0;
   end Callable;

   function Terminated (K : in out Kernel; T : Task_Number; Said : access Answer := null) return Boolean is
      Yes : Unsigned_32 := 0;
   begin
      Settle ((if Is_There (K) then C_Terminated (K.Held, T, Yes) else No_Kernel), Said);
      return Yes /= 0;
   end Terminated;

   function Count_Of
     (K : in out Kernel; By : Task_Number; Item : Entry_Name; Said : access Answer := null) return Natural
   is
      Number : Unsigned_32 := 0;
   begin
      Settle ((if Is_There (K) then C_Count (K.Held, By, Item.Family, Item.Index, Number) else No_Kernel), Said);
      return Natural (Number);
   end Count_Of;

   function Queue_Length
     (K : in out Kernel; T : Task_Number; Item : Entry_Name; Said : access Answer := null) return Natural
   is
      Number : Unsigned_32 := 0;
   begin
      Settle ((if Is_There (K) then C_Queued (K.Held, T, Item.Family, Item.Index, Number) else No_Kernel), Said);
      return Natural (Number);
   end Queue_Length;

   function Slot
     (K : in out Kernel; T : Task_Number; Item : Entry_Name; Said : access Answer := null) return Natural
   is
      Number : Unsigned_32 := 0;
   begin
      Settle ((if Is_There (K) then C_Slot (K.Held, T, Item.Family, Item.Index, Number) else No_Kernel), Said);
      return Natural (Number);
   end Slot;

   function Outcome_Of (K : in out Kernel; T : Task_Number; Said : access Answer := null) return Outcome is
      Became : Outcome;
   begin
      Settle ((if Is_There (K) then C_Outcome_Of (K.Held, T, Became) else No_Kernel), Said);
      return Became;
   end Outcome_Of;

   function Reason_Of (K : in out Kernel; T : Task_Number; Said : access Answer := null) return Reason is
      Why : Reason;
   begin
      Settle ((if Is_There (K) then C_Reason_Of (K.Held, T, Why) else No_Kernel), Said);
      return Why;
   end Reason_Of;

   function Awaited
     (K : in out Kernel; T : Task_Number; From : Task_Number := 0; Said : access Answer := null) return Task_Number
   is
      Other : Task_Number := 0;
   begin
      Settle ((if Is_There (K) then C_Awaited (K.Held, T, From, Other) else No_Kernel), Said);
      return Other;
   end Awaited;

   function Runnable (K : in out Kernel; From : Task_Number := 0; Said : access Answer := null) return Task_Number is
      T : Task_Number := 0;
   begin
      Settle ((if Is_There (K) then C_Runnable (K.Held, From, T) else No_Kernel), Said);
      return T;
   end Runnable;

   function Ended_Task
     (K : in out Kernel; From : Task_Number := 0; Said : access Answer := null) return Task_Number
   is
      T : Task_Number := 0;
   begin
      Settle ((if Is_There (K) then C_Ended (K.Held, From, T) else No_Kernel), Said);
      return T;
   end Ended_Task;

   function Next_Due (K : in out Kernel; Said : access Answer := null) return Milliseconds is
      Moment : Milliseconds := 0;
   begin
      Settle ((if Is_There (K) then C_Next_Due (K.Held, Moment) else No_Kernel), Said);
      return Moment;
   end Next_Due;

   function Board_Of (K : in out Kernel; Said : access Answer := null) return Board is
      Now : Board;
   begin
      Settle ((if Is_There (K) then C_Board_Of (K.Held, Now) else No_Kernel), Said);
      return Now;
   end Board_Of;

   function Event_At (K : in out Kernel; At_Position : Position; Said : access Answer := null) return Event is
      E : Event;
   begin
      Settle ((if Is_There (K) then C_Event_At (K.Held, At_Position, E) else No_Kernel), Said);
      return E;
   end Event_At;

   procedure Events_From (K : in out Kernel; From : Position; List : in out Event_List; Count : out Natural) is
   begin
      Count :=
        (if Is_There (K)
         then Natural (C_Events_From (K.Held, From, Start (List'Address, List'Length), List'Length))
         else 0);
   end Events_From;

   function Lengths_At (K : in out Kernel; At_Position : Position; Said : access Answer := null) return List_Lengths is
      Lengths : List_Lengths;
   begin
      Settle ((if Is_There (K) then C_Lengths_At (K.Held, At_Position, Lengths) else No_Kernel), Said);
      return Lengths;
   end Lengths_At;

   function Task_At
     (K : in out Kernel; At_Position : Position; At_Place : Place; Said : access Answer := null) return Task_Number
   is
      T : Task_Number := 0;
   begin
      Settle
        ((if Is_There (K)
          then C_Task_At (K.Held, At_Position, Unsigned_64 (At_Place), T)
          else No_Kernel), Said);
      return T;
   end Task_At;

   function Family_At
     (K : in out Kernel; At_Position : Position; At_Place : Place; Said : access Answer := null) return Family
   is
      Item : Family;
   begin
      Settle
        ((if Is_There (K)
          then C_Family_At (K.Held, At_Position, Unsigned_64 (At_Place), Item)
          else No_Kernel), Said);
      return Item;
   end Family_At;

   function Choice_At
     (K : in out Kernel; At_Position : Position; At_Place : Place; Said : access Answer := null) return Choice
   is
      Item : Choice := (Item => <>, Is_Open => False);
   begin
      Settle
        ((if Is_There (K)
          then C_Choice_At (K.Held, At_Position, Unsigned_64 (At_Place), Item)
          else No_Kernel), Said);
      return Item;
   end Choice_At;

   function Delay_At
     (K : in out Kernel; At_Position : Position; At_Place : Place; Said : access Answer := null) return Due
   is
      Item : Due;
   begin
      Settle
        ((if Is_There (K)
          then C_Delay_At (K.Held, At_Position, Unsigned_64 (At_Place), Item)
          else No_Kernel), Said);
      return Item;
   end Delay_At;

end Adatask;
