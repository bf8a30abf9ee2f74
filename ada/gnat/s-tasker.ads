--  SPDX-License-Identifier: MIT
--  What the bodies of tasking ask of the kernel, by the glue in C beside them. Where a parameter is a place, it is that
--  of a task in the glue's table, which its control block has.

with Ada.Exceptions;
with Interfaces.C;

package System.Tasking.Kernel is
   pragma Elaborate_Body;

   subtype int is Interfaces.C.int;
   subtype unsigned is Interfaces.C.unsigned;
   use type Interfaces.C.int;

   --  Answers; glue.h has the same numbers
   Ok                   : constant int := 0;
   Gone                 : constant int := 1;
   Raises_Tasking_Error : constant int := 2;
   Was_Cancelled        : constant int := 3;
   Raises_Exception     : constant int := 4;
   Raises_Program_Error : constant int := 5;

   --  Kinds of calls and last parts of waits; adatask.h has the same numbers
   Simple      : constant unsigned := 0;
   Conditional : constant unsigned := 1;
   Timed       : constant unsigned := 2;
   Nothing     : constant unsigned := 0;
   Otherwise   : constant unsigned := 1;
   Delays      : constant unsigned := 2;
   Terminates  : constant unsigned := 3;

   subtype Nanoseconds is Interfaces.Integer_64;

   type Place_List is array (Positive range <>) of aliased unsigned with Convention => C;
   type Flag_List is array (Positive range <>) of aliased int with Convention => C;

   type Alternative is record
      Item        : int;  --  the number of the entry, 0 if the alternative is closed
      Has_No_Body : int;
   end record
     with Convention => C;

   type Alternative_List is array (Positive range <>) of aliased Alternative with Convention => C;

   function Place (T : Task_Id) return unsigned is (unsigned (T.Alive_Count));
   --  Of a task in the table; 0 if it is none of ours, as that of a foreign thread. It lies where GNAT's own bodies
   --  count dependents, which nothing does here.

   procedure Set_Place (T : Task_Id; Place : unsigned);

   procedure Begin_Operation (Self_Id : Task_Id);
   procedure End_Operation (Self_Id : Task_Id; Said : int);
   --  Around each operation by which a task may be held up. The latter makes abort possible again: a task that is gone
   --  ends there. What else is answered is left to the caller.

   procedure Check_Not_Protected (Self_Id : Task_Id);
   --  Raises PROGRAM_ERROR within a protected action, if that is asked for: the operation that follows may block

   procedure Raise_Refused (Said : int) with No_Return;
   --  Raises what belongs to a limit or to a refusal

   procedure Raise_Not_Played (What : String) with No_Return;
   --  Raises PROGRAM_ERROR for something that Ada 95 added

   function From_Now (Time : Duration; Mode : Integer) return Nanoseconds;
   --  How long a delay lasts from now on, whose mode is one of System.OS_Primitives

   procedure Give_Back (Block : System.Address);
   --  Gives back a control block

   --------------
   --  Beginning, masters, tasks: life.c, masters.c

   procedure Threads_Begin_At (Code : System.Address)
     with Import, Convention => C, External_Name => "adagnat_threads_begin_at";
   function Enter_Master (Level : int; Caller : System.Address) return int
     with Import, Convention => C, External_Name => "adagnat_enter_master";
   procedure Complete_Master with Import, Convention => C, External_Name => "adagnat_complete_master";
   function Next_Over return System.Address with Import, Convention => C, External_Name => "adagnat_next_over";
   procedure Leave_Master with Import, Convention => C, External_Name => "adagnat_leave_master";
   function Create
     (Parent  : unsigned;
      Level   : int;
      Entries : unsigned;
      Block   : System.Address;
      Image   : System.Address;
      Length  : int;
      Place   : out unsigned) return int with Import, Convention => C, External_Name => "adagnat_create";
   function Activate (Count : unsigned; Places, Go : System.Address) return int
     with Import, Convention => C, External_Name => "adagnat_activate";
   procedure No_Thread (Place : unsigned) with Import, Convention => C, External_Name => "adagnat_no_thread";
   function Await_Activation return int
     with Import, Convention => C, External_Name => "adagnat_await_activation";
   procedure Thread_Begins (Place : unsigned) with Import, Convention => C, External_Name => "adagnat_thread_begins";
   function Elaborated return int with Import, Convention => C, External_Name => "adagnat_elaborated";
   procedure Complete with Import, Convention => C, External_Name => "adagnat_complete";
   procedure Unhandled (Name : System.Address; Length : int)
     with Import, Convention => C, External_Name => "adagnat_unhandled";
   function Thread_Ends return int with Import, Convention => C, External_Name => "adagnat_thread_ends";
   function Free (Place : unsigned) return int with Import, Convention => C, External_Name => "adagnat_free";
   function Abort_Tasks (Count : unsigned; Places : System.Address) return int
     with Import, Convention => C, External_Name => "adagnat_abort";
   procedure Expunge (Place : unsigned) with Import, Convention => C, External_Name => "adagnat_expunge";
   procedure Abort_Servers (Count : unsigned; Places : System.Address)
     with Import, Convention => C, External_Name => "adagnat_abort_servers";
   procedure Finish with Import, Convention => C, External_Name => "adagnat_finish";

   --------------
   --  Rendezvous, delays, attributes: rendezvous.c

   function Call
     (Place      : unsigned;
      Item       : unsigned;
      Patience   : unsigned;
      Length     : Nanoseconds;
      Parameters : System.Address) return int with Import, Convention => C, External_Name => "adagnat_call";
   function Exception_Of_Call return Ada.Exceptions.Exception_Id
     with Import, Convention => C, External_Name => "adagnat_exception";
   function Wait
     (Count        : unsigned;
      Alternatives : System.Address;
      Tail         : unsigned;
      Length       : Nanoseconds;
      Parameters   : out System.Address;
      Taken        : out unsigned) return int with Import, Convention => C, External_Name => "adagnat_wait";
   function End_Rendezvous (Raised : System.Address; Is_By_Abort : int) return int
     with Import, Convention => C, External_Name => "adagnat_end";
   function Delay_For (Length : Nanoseconds) return int
     with Import, Convention => C, External_Name => "adagnat_delay";
   function Is_Callable (Place : unsigned) return int
     with Import, Convention => C, External_Name => "adagnat_is_callable";
   function Is_Terminated (Place : unsigned) return int
     with Import, Convention => C, External_Name => "adagnat_is_terminated";
   function Count_Of (Item : unsigned) return int with Import, Convention => C, External_Name => "adagnat_count";
   function Caller_Of (Depth : unsigned) return System.Address
     with Import, Convention => C, External_Name => "adagnat_caller";
   function Has_Quit return int with Import, Convention => C, External_Name => "adagnat_has_quit";

end System.Tasking.Kernel;
