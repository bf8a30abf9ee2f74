--  SPDX-License-Identifier: MIT
--  Writes what the tasks of a program do as lines of a script of adatask (docs/FORMAT.md), for a program that isn't
--  linked with the library. `adatask` plays the log, and refuses what the rules don't allow; docs/EMBEDDING.md says
--  which lines agree exactly with what happened.
--
--  Each line is written for the task that calls, under one lock, and flushed. A task, a block or an entry has a name of
--  the script language: a letter, then letters, digits and underscores, 16 in all; no task or block has the name of
--  another, or `main`. A name that is none, and a line of more than 200 characters, 197 if it is announced, raise
--  Bad_Line, and nothing is written. The package is Ada 2012; it needs task attributes and the caller of an entry (Ada
--  95, Annex C), controlled types (Ada 95), a procedure as a parameter (Ada 2005), and the environment task (Ada 2012).

private with Ada.Finalization;
with Ada.Task_Identification;

package Tasking_Trace is

   Bad_Line : exception;

   --  Begins a log, whose main program is the calling task, at the moment 0. What the file held is lost. If Dump_After
   --  isn't 0, a task of the package's own calls Dump once nothing was written and nothing announced for so many
   --  seconds, and when the main program is over, unless there is nothing new to dump. It ends with the log, or a tenth
   --  of a second after the main program (Ada 95, 10.2), and is no task of the log.
   procedure Open (File_Name : String; Dump_After : Duration := 0.0);

   --  Ends it; what comes later isn't written.
   procedure Close;

   --  Writes the calls (9.5, 9.7.2, 9.7.3) and waits (9.5, 9.7.1) that are announced and not over, of up to 256 tasks
   --  that aren't aborted, in the order of their announcements, each after the mark "#?". For the script language
   --  these are comments; `adascope conform` plays those that stand last in a log. So the log of a program that hangs
   --  says who waits for whom.
   procedure Dump;

   -----------------------------------------------------------------------------
   --  Lines of the task's own: each is called directly before what it tells  --
   -----------------------------------------------------------------------------

   --  `create`: a declaration or an allocator makes a task under a master, with entries as the script has them, such as
   --  "Put Get Urgent 1 3" (9.1, 9.4, 9.5).
   procedure Create_Task (Name : String; Under : String := "main"; Entries : String := "");

   --  `activate`: the `begin` after the declarations, or the allocator (9.3). Names are separated by blanks.
   procedure Activate_Tasks (Names : String);

   --  `up`: the task's own activation ends (9.3). From here on the calling task has this name. Call it last in the
   --  declarative part of the body: after the `begin` the activator may go on first.
   procedure End_Activation (Name : String);

   --  The same as a declaration: "Started : constant Activation := Up (Name);".
   type Activation is limited private;
   function Up (Name : String) return Activation;

   --  `fail`: it ends by an exception (9.3).
   procedure Fail_Activation (Name : String);

   --  `open`, `close`: the `declare` and the `end` of a block that is a master (9.4).
   procedure Open_Block (Name : String);
   procedure Close_Block;

   --  `delay`, in milliseconds, which are rounded down (9.6). Call Delay_Is_Over directly after it, which ticks.
   procedure Delay_For (Length : Duration);
   procedure Delay_Is_Over;

   --  `tick`, to the milliseconds since the log was opened.
   procedure Tick;

   --  `end`, `raise`: last in the accept statement (9.5, 11.5).
   procedure End_Rendezvous (Raised : Boolean := False);

   --  `complete`: last in the body (9.4).
   procedure Complete_Task;

   --  `abort`, and what aborts the tasks, in one step under the lock (9.10). So no task writes after it was aborted.
   procedure Abort_Tasks (Names : String; Act : not null access procedure);

   ------------------------------------------------------------------
   --  Calls and waits: they are announced, and written once over  --
   ------------------------------------------------------------------

   --  An announced call and an announced wait are written together, in the accept statement, so that no other call and
   --  no other wait comes between them. With At_Once they are written where they are announced.

   type Call_Kind is (Simple, Conditional, Timed);

   --  The task is about to call (9.5, 9.7.2, 9.7.3). The name of the entry may be followed by an index.
   procedure Will_Call
     (Callee, Item : String; Kind : Call_Kind := Simple; Length : Duration := 0.0; At_Once : Boolean := False);

   --  The task is about to wait (9.5, 9.7.1): "accept Put", or "select 0 accept Put or closed accept Get or terminate".
   procedure Will_Wait (Statement : String; At_Once : Boolean := False);

   --  An alternative of a selective wait with its guard (9.7.1), as Guarded (In_Use > 0, "accept Get").
   function Guarded (Is_Open : Boolean; Alternative : String) return String is
     ((if Is_Open then "" else "closed ") & Alternative);

   --  First in the accept statement, with the attribute CALLER of the entry: the caller's call, and the wait.
   procedure Begin_Rendezvous (Caller : Ada.Task_Identification.Task_Id);

   --  First after a call that was not accepted: in the else part, after the delay, or in the handler of TASKING_ERROR.
   --  A timed call is written with no time left.
   procedure Call_Is_Over;

   --  First after a wait without a rendezvous: in the else part; or after a delay alternative, and then with the
   --  statement again, in which the alternative that was taken has no time left, as "select 0 accept Put or delay 0".
   procedure Wait_Is_Over (Statement : String := "");

   --  An object of this type, declared first in the body of a task, writes the announced wait if the task ends by its
   --  terminate alternative (9.7.1).
   type Last_Wait is limited private;

   --  Objects of these types are declared, and not named again.
   pragma Unreferenced_Objects (Activation);
   pragma Unreferenced_Objects (Last_Wait);

private

   type Activation is limited null record;

   type Last_Wait is new Ada.Finalization.Limited_Controlled with null record;
   overriding procedure Finalize (Object : in out Last_Wait);

end Tasking_Trace;
