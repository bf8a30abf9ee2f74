--  SPDX-License-Identifier: MIT
--  The run-time kernel beneath Ada tasks, for programs in Ada: what the library for C exports (include/adatask.h), in
--  Ada's own terms. docs/EMBEDDING.md says how to use it. A section is one of the Ada 83 manual (ANSI/MIL-STD-1815A);
--  moments and durations are in milliseconds.
--
--  An operation that may be refused takes Said last. If it is left out, a refusal raises Refused, with the name of the
--  answer as its message. If it is given, the answer is put there and nothing is raised; the result of a refused one is
--  0 or False, in each component of a record, or Nobody for a caller. A refused request changes nothing.
--
--  A kernel is used by one task at a time: make it a component of a protected object. It is `in out` in each operation,
--  in questions too, so the compiler refuses a protected function that asks one, since several tasks may be in such a
--  function at once. Functions with such parameters are Ada 2012; Ada 95 has controlled types and the convention C.

with Ada.Exceptions;
private with Ada.Finalization;
with Interfaces;
private with System;

package Adatask is
   pragma Preelaborate;

   ---------------
   --  Answers  --
   ---------------

   --  Why a request is refused; and, from Too_Long on, what is wrong with the numbers that were passed. Each keeps its
   --  number.
   type Answer is
     (Accepted,
      --  Written by tools/write_tables from docs/tables/causes.ini
      --  The asking task, the callee, a listed task or the task of a master doesn't exist.
      Unknown_Task,
      --  The asking task isn't running.
      Not_Running,
      --  A wait, end or completion by a task that is still being activated (9.3).
      During_Activation,
      --  The end of an activation by a task that has ended it already, or by the main program (9.3).
      Not_Activating,
      --  A creation under a master that the asking task is neither in nor depends on (9.4).
      Not_Your_Master,
      --  A list of tasks or of delay alternatives is empty (9.7.1, 9.10).
      Empty_List,
      --  An activation of a task that the asking task didn't make, that an activation named before, or that is listed
      --  twice (9.3).
      Not_Your_Task,
      --  A wait has no accept alternative (9.7.1).
      No_Accept,
      --  The family of a call or of any accept alternative isn't declared (9.5).
      No_Such_Family,
      --  The index of a call or of an open accept alternative lies outside its family's range (9.5).
      Breaks_Constraint,
      --  An accept alternative, open or closed, for the family of a rendezvous that the task is within (9.5).
      Same_Family_Nested,
      --  A terminate alternative, open or closed, within a rendezvous (9.7.1).
      Terminate_In_Accept,
      --  An end while the task is in no rendezvous, or in a block within it (9.5).
      Not_In_Accept,
      --  A close while the task is in no block, or in a rendezvous within it (9.4).
      No_Block,
      --  A completion, or the end of an activation, within a block or a rendezvous (9.4).
      Still_Nested,
      --  An abort of the main program (9.10).
      Main_Task,
      --  A tick to a moment before the present one (9.6).
      Moment_Back,
      --  A tick, or the due moment of a timed call, a delay or an open delay alternative, above 9,000,000,000,000
      --  milliseconds (9.6).
      Moment_Too_Large,
      --  A creation while there are 256 tasks, the main program and those that are gone counted.
      Too_Many_Tasks,
      --  A creation with which there would be more than 1,024 entries over all tasks.
      Too_Many_Slots,
      --  An opening or a wait within 32 blocks and rendezvous.
      Too_Deep,
      --  The journal of 65,536 events hasn't room for the 769 that one request may append.
      Journal_Full,
      --  Memory was refused, and no other cause applies.
      Out_Of_Memory,
      --  End of what tools/write_tables wrote
      Too_Long,             --  a list is longer than the kernel takes
      No_Such_Kind,         --  a kind that is none, as an invalid value of a type of kinds here
      Out_Of_Range,         --  a number that is too large for a task, a position or a family
      No_Such_Event,        --  there is no event at this position
      No_Such_Item,         --  the list has no such item, or none is found
      No_Such_Task,         --  there is no such task
      No_Such_Entry,        --  the task has no such entry
      No_Kernel,            --  the kernel was dropped, or memory for it was refused
      Given_Up,             --  the task, or the event, was given up
      Not_Terminated,       --  the task isn't terminated, so it can't be given up
      No_Room,              --  no shorter journal was found: there is no room for helpers, mostly
      Not_Compacted,        --  for want of memory the journal wasn't made shorter; a request doesn't fit then
      No_More_Names,        --  all numbers of tasks or positions are used up
      Lives_On,             --  only a kernel that keeps everything does this
      Keeps_All)            --  only a kernel that lives on does this
     with Convention => C, Size => 32;
   for Answer use
     (Accepted => 0,
      --  Written by tools/write_tables from docs/tables/causes.ini
      Unknown_Task => 1, Not_Running => 2, During_Activation => 3, Not_Activating => 4, Not_Your_Master => 5,
      Empty_List => 6, Not_Your_Task => 7, No_Accept => 8, No_Such_Family => 9, Breaks_Constraint => 10,
      Same_Family_Nested => 11, Terminate_In_Accept => 12, Not_In_Accept => 13, No_Block => 14, Still_Nested => 15,
      Main_Task => 16, Moment_Back => 17, Moment_Too_Large => 18, Too_Many_Tasks => 19, Too_Many_Slots => 20,
      Too_Deep => 21, Journal_Full => 22, Out_Of_Memory => 23,
      --  End of what tools/write_tables wrote
      Too_Long => 100,
      No_Such_Kind => 101, Out_Of_Range => 102, No_Such_Event => 103, No_Such_Item => 104, No_Such_Task => 105,
      No_Such_Entry => 106, No_Kernel => 107, Given_Up => 108, Not_Terminated => 109, No_Room => 110,
      Not_Compacted => 111, No_More_Names => 112, Lives_On => 113, Keeps_All => 114);

   --  What a refusal raises.
   Refused : exception;

   --  The answer that an occurrence of Refused stands for.
   function Answer_Of (Occurrence : Ada.Exceptions.Exception_Occurrence) return Answer is
     (Answer'Value (Ada.Exceptions.Exception_Message (Occurrence)));

   ------------------------
   --  Tasks and events  --
   ------------------------

   --  A task: 0 is the main program, and the others count up in the order of their creation (9.1), to 255 in a kernel
   --  that keeps everything.
   type Task_Or_Nobody is range -1 .. 2 ** 63 - 1 with Size => 64;
   Nobody : constant Task_Or_Nobody := -1;
   subtype Task_Number is Task_Or_Nobody range 0 .. Task_Or_Nobody'Last;
   Main_Program : constant Task_Number := 0;

   --  Where an event stands among all that there ever were, from 1, to 65,536 in a kernel that keeps everything. A
   --  call, wait, delay, start of an activation, close or block is named by the position of its event. 0 stands for
   --  none.
   type Position is range 0 .. 2 ** 63 - 1 with Size => 64;

   --  A moment, counted from the beginning, 0 to 9_000_000_000_000; or a duration, of which a negative one counts as 0
   --  (9.6).
   type Milliseconds is range -2 ** 63 .. 2 ** 63 - 1 with Size => 64;

   --  The place of an item in a list, from 0; so alternatives of a wait have the numbers by which outcomes name them.
   type Place is range 0 .. 2 ** 31 - 1 with Size => 32;

   type Task_List is array (Place range <>) of Task_Number with Convention => C;

   --  A Boolean as C has it.
   type Flag is new Boolean with Convention => C, Size => 32;

   ---------------
   --  Entries  --
   ---------------

   --  The place of a family of entries in the task's declaration, from 0 to 15 (9.5).
   type Family_Number is range 0 .. 2 ** 31 - 1 with Size => 32;

   --  The index of an entry of a family; 0 for a single entry (9.5).
   type Entry_Index is range -2 ** 31 .. 2 ** 31 - 1 with Size => 32;

   --  A family with its range of indexes; it has no entry if Low is above High. A single entry is one of 0 .. 0 (9.5).
   type Family is record
      Low, High : Entry_Index := 0;
   end record with Convention => C;
   Single_Entry : constant Family := (Low => 0, High => 0);

   --  What a task declares: up to 16 families, with 1,024 entries in all tasks together.
   type Family_List is array (Place range <>) of Family with Convention => C;
   No_Families : constant Family_List (1 .. 0) := (others => (Low => 0, High => 0));

   --  An entry of a task (9.5).
   type Entry_Name is record
      Family : Family_Number := 0;
      Index  : Entry_Index := 0;
   end record with Convention => C;

   ---------------
   --  Masters  --
   ---------------

   --  What tasks depend on: a task's body, or a block, by the position of its opening (9.4).
   type Master_Kind is (A_Body, A_Block) with Convention => C, Size => 32;
   type Master (Kind : Master_Kind := A_Body) is record
      case Kind is
         when A_Body  => Owner     : Task_Number := Main_Program;
         when A_Block => Opened_At : Position := 0;
      end case;
   end record;

   -----------------------
   --  Calls and waits  --
   -----------------------

   --  A simple call waits (9.5), a conditional one doesn't (9.7.2), a timed one does for a duration (9.7.3).
   type Call_Kind is (Simple, Conditional, Timed) with Convention => C, Size => 32;

   --  An accept alternative; Is_Open is what its guard gives (9.7.1).
   type Choice is record
      Item    : Entry_Name;
      Is_Open : Flag := True;
   end record with Convention => C;

   --  The accept alternatives of a wait, 1 to 16.
   type Choice_List is array (Place range <>) of Choice with Convention => C;

   --  A delay alternative (9.7.1).
   type Delay_Alternative is record
      Length  : Milliseconds := 0;
      Is_Open : Flag := True;
   end record with Convention => C;

   --  The delay alternatives of a wait, 1 to 8 if its last part is Delays, else none.
   type Delay_List is array (Place range <>) of Delay_Alternative with Convention => C;
   No_Delays : constant Delay_List (1 .. 0) := (others => (Length => 0, Is_Open => False));

   --  The last part of a wait: an else part, delay alternatives, or a terminate alternative (9.7.1).
   type Last_Part is (Nothing, Else_Part, Delays, Terminate_Alternative, Closed_Terminate_Alternative)
     with Convention => C, Size => 32;

   --  Of N alternatives that may be selected, the one with the number Pick mod N is, in text order from 0 (9.7.1).
   type Pick_Number is mod 2 ** 32;

   --------------
   --  Events  --
   --------------

   --  What tasks ask for, and what is forced, with the components and functions of Event that say more. Each keeps its
   --  number.
   type Event_Kind is
     (No_Event,
      --  Written by tools/write_tables from docs/tables/events.ini
      --  A task entered a block (5.6, 9.4). It has By, Under_Of.
      Opened,
      --  A task was made, under the task or the block on which it depends (9.1, 9.4). It has By, Under_Of, Master_Of;
      --  lists: Families.
      Created,
      --  A task started to activate others (9.3). It has By; lists: Tasks.
      Started,
      --  A task ended its own activation, by an exception if it isn't ok (9.3). It has By, Is_Ok.
      Elaborated,
      --  A task called an entry; a timed call is due at a moment (9.5, 9.7.2, 9.7.3). It has By, Callee, Item,
      --  Call_Kind_Of, Is_Timed, Moment, Length.
      Called,
      --  A task waits selectively, or at an accept statement (9.5, 9.7.1). It has By, Number (the pick), Last_Part_Of;
      --  lists: Choices, Delays.
      Waiting,
      --  A task is delayed until a moment (9.6). It has By, Moment.
      Paused,
      --  A rendezvous ended, by an exception if it is raised (9.5, 11.5). It has By, Call, Is_Raised.
      Ended,
      --  A task came to the end of a block (9.4). It has By, At_Position (of the block).
      Closed,
      --  A task came to the end of its statements (9.4). It has By.
      Completed,
      --  A task asked for an abort of tasks (9.10). It has By; lists: Tasks.
      Aborted,
      --  The moment moved (9.6). It has Moment.
      Ticked,
      --  Forced: a task was completed by an abort (9.10). It has By.
      Halted,
      --  Forced: a call raised TASKING_ERROR (9.5, 9.10). It has Call.
      Failed,
      --  Forced: a wait took a call, and their rendezvous began (9.5, 9.7.1). It has Call, At_Position (of the wait).
      Met,
      --  Forced: a conditional or timed call left its queue (9.7.2, 9.7.3). It has Call.
      Cancelled,
      --  Forced: a wait ended without a rendezvous (9.7.1). It has At_Position (of the wait), Way_Of, Number (of the
      --  delay alternative).
      Passed,
      --  Forced: a delay is over (9.6). It has At_Position (of the delay).
      Woken,
      --  Forced: an activation ended, with TASKING_ERROR in its task if it isn't ok (9.3). It has At_Position (of the
      --  start), Is_Ok.
      Activated,
      --  Forced: a task terminated by itself (9.3, 9.4). It has By.
      Gone,
      --  Forced: all that depended on a master and weren't terminated yet terminated together (9.4). It has Master_Of.
      Quit,
      --  Forced: a task left the block that it had closed (9.4). It has At_Position (of the close).
      Left
      --  End of what tools/write_tables wrote
     )
     with Convention => C, Size => 32;

   --  How a wait ended without a rendezvous (9.7.1).
   type Way is (By_Else, By_Delay, By_Program_Error) with Convention => C, Size => 32;

   --  An event. What its kind has no use for is 0 or False.
   type Event is record
      Kind        : Event_Kind := No_Event;
      Form        : Interfaces.Unsigned_32 := 0;  --  read it by the functions below
      By          : Task_Number := 0;             --  the task that asked for it, or to which it happened
      Callee      : Task_Number := 0;             --  the task whose entry was called
      Item        : Entry_Name;                   --  the entry that was called
      Under_Kind  : Master_Kind := A_Body;        --  read these four by the functions below
      Master_Kind : Adatask.Master_Kind := A_Body;
      Under       : Interfaces.Unsigned_64 := 0;
      Master      : Interfaces.Unsigned_64 := 0;
      Call        : Position := 0;                --  the call
      At_Position : Position := 0;                --  the wait, delay, start, close or block
      Number      : Pick_Number := 0;             --  the pick of a wait, or the number of a delay alternative, from 0
      Is_Timed    : Flag := False;                --  whether a call has a moment at which it ends
      Moment      : Milliseconds := 0;            --  when it is due, or to which the moment moved
      Length      : Milliseconds := 0;            --  the duration of a timed call
   end record with Convention => C;

   --  Of Elaborated and Activated whether it was without an exception (9.3); of Ended whether by one (11.5).
   function Is_Ok (E : Event) return Boolean is (Boolean'Val (E.Form));
   function Is_Raised (E : Event) return Boolean is (Boolean'Val (E.Form));

   --  Of Called, of Waiting, of Passed.
   function Call_Kind_Of (E : Event) return Call_Kind is (Call_Kind'Val (E.Form));
   function Last_Part_Of (E : Event) return Last_Part is (Last_Part'Val (E.Form));
   function Way_Of (E : Event) return Way is (Way'Val (E.Form));

   --  Of Opened and Created the master in which the task was; of Created the one on which the new task depends, and of
   --  Quit the one whose dependents terminated (9.4).
   function Under_Of (E : Event) return Master is
     (case E.Under_Kind is
         when A_Body  => (A_Body, Task_Number (E.Under)),
         when A_Block => (A_Block, Position (E.Under)));
   function Master_Of (E : Event) return Master is
     (case E.Master_Kind is
         when A_Body  => (A_Body, Task_Number (E.Master)),
         when A_Block => (A_Block, Position (E.Master)));

   --  How many items the lists of an event have.
   type List_Lengths is record
      Tasks    : Interfaces.Unsigned_64 := 0;  --  those that Started or Aborted named
      Families : Interfaces.Unsigned_64 := 0;  --  those that a task declared, of Created
      Choices  : Interfaces.Unsigned_64 := 0;  --  the accept alternatives of Waiting
      Delays   : Interfaces.Unsigned_64 := 0;  --  the delay alternatives of Waiting
   end record with Convention => C;

   --  A delay alternative of an event: the moment at which it is due, 0 if it is closed.
   type Due is record
      Moment  : Milliseconds := 0;
      Is_Open : Flag := False;
   end record with Convention => C;

   ----------------------------
   --  Outcomes and reasons  --
   ----------------------------

   --  What became of a task's latest call, wait, delay, activation or close (9.3 to 9.7, 11.5).
   type Outcome_Kind is
     (Did_Nothing,        --  there was none
      Is_Dead,            --  it is terminated
      Is_Done,            --  it is completed
      Is_Held,            --  nothing yet: it isn't released
      Was_Served,         --  its call, to the end of the rendezvous
      Got_Tasking_Error,  --  its call failed
      Was_Cancelled,      --  its conditional or timed call left the queue
      Has_Accepted,       --  its wait took a call
      Took_Else,          --  its wait took the else part
      Took_Delay,         --  its wait took a delay alternative
      Got_Program_Error,  --  nothing was open in its wait
      Is_Awake,           --  its delay is over
      Activation_Ok,      --  all that it activated came up
      Activation_Failed,  --  one that it activated didn't: TASKING_ERROR
      Left_Block,         --  it left the block that it closed
      Got_Exception)      --  an exception ended the rendezvous in which it was
     with Convention => C, Size => 32;
   type Outcome is record
      Kind   : Outcome_Kind := Did_Nothing;
      Number : Place := 0;                  --  the alternative that was taken, from 0
      Call   : Position := 0;               --  the call that was accepted
      Caller : Task_Or_Nobody := Nobody;    --  who made it, while it is suspended in the rendezvous (9.5)
   end record with Convention => C;

   --  Why a task doesn't go on by itself.
   type Reason_Kind is
     (Goes_On,            --  it runs, or is terminated
      Not_Started,        --  it was made, and no activation of it was started (9.3)
      Activating,         --  it started an activation, which hasn't ended (9.3)
      Queued,             --  its call stands in the queue of an entry (9.5)
      In_Rendezvous,      --  its call is being served (9.5)
      In_Wait,            --  it waits for a call, or for what else its wait may take (9.5, 9.7.1)
      Delayed,            --  it is delayed (9.6)
      Leaving,            --  it is at the end of a block, of which a dependent isn't terminated (9.4)
      Awaits_Dependents)  --  it is completed, and a dependent isn't terminated (9.4)
     with Convention => C, Size => 32;
   type Reason is record
      Kind        : Reason_Kind := Goes_On;
      At_Position : Position := 0;          --  of its start, call, wait, delay or close; 0 if it isn't suspended
   end record with Convention => C;

   --  The attributes of all tasks and entries (9.9). What is beyond Tasks and Slots is False and 0.
   subtype Board_Task is Task_Number range 0 .. 255;
   type Task_Flags is array (Board_Task) of Boolean with Component_Size => 8, Convention => C;
   type Slot_Counts is array (Natural range 0 .. 1_023) of Interfaces.Unsigned_16 with Convention => C;
   type Board is record
      Events     : Interfaces.Unsigned_64 := 0;
      Tasks      : Interfaces.Unsigned_32 := 0;
      Slots      : Interfaces.Unsigned_32 := 0;
      Callable   : Task_Flags := (others => False);
      Terminated : Task_Flags := (others => False);
      Counts     : Slot_Counts := (others => 0);     --  by the slot of the entry
   end record with Convention => C;

   ---------------
   --  Kernels  --
   ---------------

   --  A kernel, made where it is declared, with an empty journal; the main program runs in it. It can't be copied, and
   --  is dropped where it is left. If memory for it was refused, each request is answered No_Kernel. It keeps
   --  everything: each event and each task stays, those that are gone too.
   type Kernel is limited private;

   --  Drops the kernel, and makes a new one that keeps everything in its place. Answers Accepted or Out_Of_Memory.
   procedure Renew (K : in out Kernel; Said : access Answer := null);

   --  Drops the kernel, and makes a new one that lives on in its place: at most 256 tasks and 1,024 entries at a time,
   --  and no end of events. No number of a task or of a position is used twice. The events that still matter lie in a
   --  journal that is made shorter when it has Threshold of them. Terminated tasks whose masters are gone are given up
   --  then: what names such a task is answered Given_Up. The events of the last request can be asked for, and no
   --  others. Answers Accepted or Out_Of_Memory.
   type Event_Count is range 0 .. 65_536 with Size => 32;
   procedure Renew_Lasting (K : in out Kernel; Threshold : Event_Count := 4_096; Said : access Answer := null);

   --  The moment of the host's clock for each request from now on, or No_Clock. At a moment a request's durations count
   --  from it, and there is no tick. But if a task waits for that moment or for an earlier one, or a duration of the
   --  request is over at once, a tick to it comes first, and stays if the request is refused. That tick isn't shown as
   --  part of the request: who wakes tasks asks for it, once Next_Due is at or before the moment. A moment before the
   --  kernel's is answered Moment_Back. Only a kernel that lives on has a clock: the other answers each request
   --  Keeps_All then.
   No_Clock : constant Milliseconds := -1;
   procedure Set_Clock (K : in out Kernel; Now : Milliseconds);

   --  Gives a terminated task of a kernel that lives on up, as Unchecked_Deallocation its storage: it takes no room,
   --  and may not be named any more. No event is shown until the next request.
   procedure Release (K : in out Kernel; T : Task_Number; Said : access Answer := null);

   --  Makes the journal of a kernel that lives on shorter now, at a moment of the host's choice. No event is shown
   --  until the next request.
   procedure Compact (K : in out Kernel; Said : access Answer := null);

   --  Drops the kernel now; it may be renewed.
   procedure Drop (K : in out Kernel);

   --------------------------------------------------------------------------------------------------------------
   --  Requests: By is the task that asks, and the result the position of its event. What it forces follows it  --
   --------------------------------------------------------------------------------------------------------------

   --  Whether the task of the last accepted request ran after it; a tick is no task's.
   function Goes_On (K : Kernel) return Boolean;

   --  Enters a block within what the task is in (5.6, 9.4). The block is named by the position.
   function Open_Block (K : in out Kernel; By : Task_Number; Said : access Answer := null) return Position;

   --  Makes a task that depends on a master (9.1, 9.4), with families of entries. Its number is Tasks (K) - 1 then.
   function Create_Task
     (K : in out Kernel; By : Task_Number; On : Master; Entries : Family_List := No_Families;
      Said : access Answer := null) return Position;

   --  Starts the activation of tasks, up to 256, and waits for its end (9.3).
   function Activate_Tasks
     (K : in out Kernel; By : Task_Number; Tasks : Task_List; Said : access Answer := null) return Position;

   --  Ends the task's own activation; by an exception, which completes it, if it isn't Ok (9.3).
   function End_Activation
     (K : in out Kernel; By : Task_Number; Ok : Boolean := True; Said : access Answer := null) return Position;

   --  Calls an entry (9.5, 9.7.2, 9.7.3). Length is that of a timed call, and counts for no other.
   function Call_Entry
     (K : in out Kernel; By, Callee : Task_Number; Item : Entry_Name; Kind : Call_Kind := Simple;
      Length : Milliseconds := 0; Said : access Answer := null) return Position;

   --  Accepts a call of one entry: a wait with one open alternative and no last part (9.5).
   function Accept_Call
     (K : in out Kernel; By : Task_Number; Item : Entry_Name; Said : access Answer := null) return Position;

   --  Waits selectively (9.7.1).
   function Selective_Wait
     (K : in out Kernel; By : Task_Number; Choices : Choice_List; Last : Last_Part := Nothing;
      Alternatives : Delay_List := No_Delays; Pick : Pick_Number := 0; Said : access Answer := null) return Position;

   --  Delays the task (9.6).
   function Delay_For
     (K : in out Kernel; By : Task_Number; Length : Milliseconds; Said : access Answer := null) return Position;

   --  Ends the innermost rendezvous (9.5); by an exception, which the caller has too, if it is Raised (11.5).
   function End_Rendezvous
     (K : in out Kernel; By : Task_Number; Raised : Boolean := False; Said : access Answer := null) return Position;

   --  Comes to the end of the innermost block, and waits for its dependents (9.4).
   function Close_Block (K : in out Kernel; By : Task_Number; Said : access Answer := null) return Position;

   --  Completes the task's body (9.4).
   function Complete_Task (K : in out Kernel; By : Task_Number; Said : access Answer := null) return Position;

   --  Aborts tasks, up to 256, and their dependents (9.10).
   function Abort_Tasks
     (K : in out Kernel; By : Task_Number; Tasks : Task_List; Said : access Answer := null) return Position;

   --  Moves the moment, which is 0 at first and never goes back. No task asks for it.
   function Tick (K : in out Kernel; Now : Milliseconds; Said : access Answer := null) return Position;

   -----------------------------------------
   --  Questions, which change no kernel  --
   -----------------------------------------

   --  How many tasks there are or ever were, the main program counted, and how many events; 0 without a kernel.
   function Tasks (K : in out Kernel) return Task_Number;
   function Events (K : in out Kernel) return Position;

   --  Whether the main program is terminated; False without a kernel.
   function Finished (K : in out Kernel) return Boolean;

   --  Whether a task runs: it is activated or being so, hasn't ended, and isn't held up.
   function Running (K : in out Kernel; T : Task_Number; Said : access Answer := null) return Boolean;

   --  The attributes of a task (9.9).
   function Callable (K : in out Kernel; T : Task_Number; Said : access Answer := null) return Boolean;
   function Terminated (K : in out Kernel; T : Task_Number; Said : access Answer := null) return Boolean;

   --  COUNT of an entry of the asking task's own (9.9). It is refused like a request.
   function Count_Of
     (K : in out Kernel; By : Task_Number; Item : Entry_Name; Said : access Answer := null) return Natural;

   --  How many calls are queued at an entry of a task (9.5): its COUNT, which anybody may ask here.
   function Queue_Length
     (K : in out Kernel; T : Task_Number; Item : Entry_Name; Said : access Answer := null) return Natural;

   --  The slot of an entry, below 1,024, of a kernel that keeps everything: all entries are numbered in order of task,
   --  family and index.
   function Slot
     (K : in out Kernel; T : Task_Number; Item : Entry_Name; Said : access Answer := null) return Natural;

   --  What became of a task.
   function Outcome_Of (K : in out Kernel; T : Task_Number; Said : access Answer := null) return Outcome;

   --  Why a task doesn't go on by itself.
   function Reason_Of (K : in out Kernel; T : Task_Number; Said : access Answer := null) return Reason;

   --  The first task with the number From or more for which T waits, or No_Such_Item: its maker, if it isn't started;
   --  those that it activates; the task that it called; the dependents of the block that it leaves, or of its own body.
   --  It looks at all tasks, and is for diagnosis.
   function Awaited
     (K : in out Kernel; T : Task_Number; From : Task_Number := 0; Said : access Answer := null) return Task_Number;

   --  The first task with the number From or more that runs, and didn't before the last request that was accepted; or
   --  No_Such_Item.
   function Runnable
     (K : in out Kernel; From : Task_Number := 0; Said : access Answer := null) return Task_Number;

   --  The first task with the number From or more that is terminated, and wasn't before the last request that was
   --  accepted; or No_Such_Item. Of a kernel that lives on.
   function Ended_Task
     (K : in out Kernel; From : Task_Number := 0; Said : access Answer := null) return Task_Number;

   --  The first moment for which any task waits, or No_Such_Item: of a delay, a timed call that isn't served yet, or an
   --  open delay alternative. A tick to an earlier moment forces nothing.
   function Next_Due (K : in out Kernel; Said : access Answer := null) return Milliseconds;

   --  The attributes of all tasks and entries (9.9), of a kernel that keeps everything.
   function Board_Of (K : in out Kernel; Said : access Answer := null) return Board;

   --  The events from a position on, as many as there are and as List has room for, and how many these are: from the
   --  position that a request was answered, all that it appended.
   type Event_List is array (Place range <>) of Event with Convention => C;
   procedure Events_From (K : in out Kernel; From : Position; List : in out Event_List; Count : out Natural);

   --  The event at a position, and what its lists have at a place. A kernel that lives on has the events that the last
   --  request appended.
   function Event_At (K : in out Kernel; At_Position : Position; Said : access Answer := null) return Event;
   function Lengths_At (K : in out Kernel; At_Position : Position; Said : access Answer := null) return List_Lengths;
   function Task_At
     (K : in out Kernel; At_Position : Position; At_Place : Place; Said : access Answer := null) return Task_Number;
   function Family_At
     (K : in out Kernel; At_Position : Position; At_Place : Place; Said : access Answer := null) return Family;
   function Choice_At
     (K : in out Kernel; At_Position : Position; At_Place : Place; Said : access Answer := null) return Choice;
   function Delay_At
     (K : in out Kernel; At_Position : Position; At_Place : Place; Said : access Answer := null) return Due;

private

   --  The struct of C, which is passed by value where it is dropped.
   type Handle is record
      Kernel : System.Address := System.Null_Address;
   end record with Convention => C_Pass_By_Copy;

   type Kernel is new Ada.Finalization.Limited_Controlled with record
      Held : Handle;
      Now  : Milliseconds := No_Clock;
      Runs : Interfaces.Unsigned_32 := 0;
   end record;
   overriding procedure Initialize (K : in out Kernel);
   overriding procedure Finalize (K : in out Kernel);

   function Goes_On (K : Kernel) return Boolean is (Interfaces."/=" (K.Runs, 0));

end Adatask;
