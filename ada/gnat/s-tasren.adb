--  SPDX-License-Identifier: MIT
--  Entry calls, accept and select statements as the compiler asks for them, played by the kernel.

with Ada.Unchecked_Conversion;
with Interfaces.C;
with System.Task_Primitives.Operations;
with System.Tasking.Initialization;
with System.Tasking.Kernel;
pragma Elaborate_All (System.Tasking.Kernel);

package body System.Tasking.Rendezvous is

   package STPO renames System.Task_Primitives.Operations;
   use type Interfaces.C.int;

   subtype Kind is Interfaces.C.unsigned;

   Asynchronous_Select : constant String := "asynchronous select with an entry call";

   function To_Task is new Ada.Unchecked_Conversion (System.Address, Task_Id);
   function To_Address is new Ada.Unchecked_Conversion (Ada.Exceptions.Exception_Id, System.Address);

   procedure Raise_With_Message (Id : Ada.Exceptions.Exception_Id)
     with Import, Convention => C, External_Name => "__gnat_raise_with_msg", No_Return;
   --  Raises an exception with the message that was put into the task's occurrence

   procedure Reraise with Import, Convention => C, External_Name => "__gnat_reraise", No_Return;

   procedure Transfer_Occurrence
     (Target : Ada.Exceptions.Exception_Occurrence_Access; Source : Ada.Exceptions.Exception_Occurrence)
     with Import, Convention => C, External_Name => "__gnat_transfer_occurrence";

   procedure Call_Entry
     (Acceptor   : Task_Id;
      E          : Task_Entry_Index;
      Parameters : System.Address;
      Patience   : Kind;
      Length     : Kernel.Nanoseconds;
      Is_Served  : out Boolean);

   procedure Wait
     (Open_Accepts  : Accept_List;
      Tail          : Kind;
      Length        : Kernel.Nanoseconds;
      Stays_Deferred : Boolean;
      Parameters    : out System.Address;
      Index         : out Select_Index);
   --  If it stays deferred, abort is possible again only within the accept statement that was taken, if it has a body

   procedure Raise_Outcome (Said : Kernel.int);

   function Tail_Of (Mode : Select_Modes) return Kind is
     (case Mode is
         when Simple_Mode    => Kernel.Nothing,
         when Delay_Mode     => Kernel.Delays,
         when Else_Mode      => Kernel.Otherwise,
         when Terminate_Mode => Kernel.Terminates);

   -------------
   --  Calls  --
   -------------

   --  A task that is gone has no outcome: its next operation ends it
   procedure Raise_Outcome (Said : Kernel.int) is
      use type Ada.Exceptions.Exception_Id;
      Raised : Ada.Exceptions.Exception_Id;
   begin
      case Said is
         when Kernel.Ok | Kernel.Was_Cancelled =>
            null;
         when Kernel.Gone | Kernel.Raises_Tasking_Error =>
            raise Tasking_Error;
         when Kernel.Raises_Program_Error =>
            raise Program_Error;
         when Kernel.Raises_Exception =>
            Raised := Kernel.Exception_Of_Call;
            if Raised = Ada.Exceptions.Null_Id then
               raise Tasking_Error;
            end if;
            Raise_With_Message (Raised);
         when others =>
            Kernel.Raise_Refused (Said);
      end case;
   end Raise_Outcome;

   procedure Call_Entry
     (Acceptor   : Task_Id;
      E          : Task_Entry_Index;
      Parameters : System.Address;
      Patience   : Kind;
      Length     : Kernel.Nanoseconds;
      Is_Served  : out Boolean)
   is
      Self_Id : constant Task_Id := STPO.Self;
      Said    : Kernel.int;
   begin
      Kernel.Check_Not_Protected (Self_Id);
      Kernel.Begin_Operation (Self_Id);
      Said := Kernel.Call (Kernel.Place (Acceptor), Kernel.unsigned (E), Patience, Length, Parameters);
      Kernel.End_Operation (Self_Id, Said);
      Raise_Outcome (Said);
      Is_Served := Said = Kernel.Ok;
   end Call_Entry;

   procedure Call_Simple (Acceptor : Task_Id; E : Task_Entry_Index; Uninterpreted_Data : System.Address) is
      Is_Served : Boolean;
   begin
      Call_Entry (Acceptor, E, Uninterpreted_Data, Kernel.Simple, 0, Is_Served);
   end Call_Simple;

   procedure Task_Entry_Call
     (Acceptor              : Task_Id;
      E                     : Task_Entry_Index;
      Uninterpreted_Data    : System.Address;
      Mode                  : Call_Modes;
      Rendezvous_Successful : out Boolean)
   is
   begin
      if Mode = Asynchronous_Call then
         Kernel.Raise_Not_Played (Asynchronous_Select);
      end if;
      Call_Entry
        (Acceptor, E, Uninterpreted_Data, (if Mode = Conditional_Call then Kernel.Conditional else Kernel.Simple), 0,
         Rendezvous_Successful);
   end Task_Entry_Call;

   procedure Timed_Task_Entry_Call
     (Acceptor              : Task_Id;
      E                     : Task_Entry_Index;
      Uninterpreted_Data    : System.Address;
      Timeout               : Duration;
      Mode                  : Delay_Modes;
      Rendezvous_Successful : out Boolean)
   is
   begin
      Call_Entry
        (Acceptor, E, Uninterpreted_Data, Kernel.Timed, Kernel.From_Now (Timeout, Mode), Rendezvous_Successful);
   end Timed_Task_Entry_Call;

   procedure Cancel_Task_Entry_Call (Cancelled : out Boolean) is
   begin
      Kernel.Raise_Not_Played (Asynchronous_Select);
   end Cancel_Task_Entry_Call;

   ------------------------------------
   --  Accept and select statements  --
   ------------------------------------

   procedure Wait
     (Open_Accepts   : Accept_List;
      Tail           : Kind;
      Length         : Kernel.Nanoseconds;
      Stays_Deferred : Boolean;
      Parameters     : out System.Address;
      Index          : out Select_Index)
   is
      Self_Id      : constant Task_Id := STPO.Self;
      Alternatives : Kernel.Alternative_List (1 .. Open_Accepts'Length);
      Taken        : Kernel.unsigned;
      Said         : Kernel.int;
      Has_Body     : Boolean;
   begin
      for J in Alternatives'Range loop
         declare
            Open : Accept_Alternative renames Open_Accepts (Open_Accepts'First + J - 1);
         begin
            Alternatives (J) := (Item => Kernel.int (Open.S), Has_No_Body => Boolean'Pos (Open.Null_Body));
         end;
      end loop;
      Kernel.Begin_Operation (Self_Id);
      Said := Kernel.Wait (Alternatives'Length, Alternatives'Address, Tail, Length, Parameters, Taken);
      Index := Select_Index (Taken);
      Has_Body := Index > 0 and then Alternatives (Index).Has_No_Body = 0;
      if Has_Body and then Stays_Deferred then
         Self_Id.Common.State := Runnable;
         return;
      end if;
      begin
         Kernel.End_Operation (Self_Id, Said);
      exception
         --  The accept statement isn't entered, so nothing else lets the caller go on
         when Standard'Abort_Signal =>
            if Has_Body then
               Initialization.Defer_Abort_Nestable (Self_Id);
               Said := Kernel.End_Rendezvous (System.Null_Address, Boolean'Pos (True));
               Initialization.Undefer_Abort_Nestable (Self_Id);
            end if;
            raise;
      end;
      Raise_Outcome (Said);
   end Wait;

   procedure Accept_Call (E : Task_Entry_Index; Uninterpreted_Data : out System.Address) is
      Index : Select_Index;
   begin
      Wait ([(Null_Body => False, S => E)], Kernel.Nothing, 0, False, Uninterpreted_Data, Index);
   end Accept_Call;

   procedure Accept_Trivial (E : Task_Entry_Index) is
      Index      : Select_Index;
      Parameters : System.Address;
   begin
      Wait ([(Null_Body => True, S => E)], Kernel.Nothing, 0, False, Parameters, Index);
   end Accept_Trivial;

   --  An alternative with a delay comes by the operation below
   procedure Selective_Wait
     (Open_Accepts       : Accept_List_Access;
      Select_Mode        : Select_Modes;
      Uninterpreted_Data : out System.Address;
      Index              : out Select_Index)
   is
      Tail : constant Kind := (if Select_Mode = Delay_Mode then Kernel.Nothing else Tail_Of (Select_Mode));
   begin
      Wait (Open_Accepts.all, Tail, 0, True, Uninterpreted_Data, Index);
   end Selective_Wait;

   procedure Timed_Selective_Wait
     (Open_Accepts       : Accept_List_Access;
      Select_Mode        : Select_Modes;
      Uninterpreted_Data : out System.Address;
      Timeout            : Duration;
      Mode               : Delay_Modes;
      Index              : out Select_Index)
   is
   begin
      Wait
        (Open_Accepts.all, Tail_Of (Select_Mode), Kernel.From_Now (Timeout, Mode), True, Uninterpreted_Data, Index);
   end Timed_Selective_Wait;

   procedure Complete_Rendezvous is
      Self_Id : constant Task_Id := STPO.Self;
      Said    : Kernel.int;
   begin
      Kernel.Begin_Operation (Self_Id);
      Said := Kernel.End_Rendezvous (System.Null_Address, Boolean'Pos (False));
      Kernel.End_Operation (Self_Id, Said);
   end Complete_Rendezvous;

   --  An abort reaches the handler of an accept statement too
   procedure Exceptional_Complete_Rendezvous (Ex : Ada.Exceptions.Exception_Id) is
      use type Ada.Exceptions.Exception_Id;
      Self_Id     : constant Task_Id := STPO.Self;
      Is_By_Abort : constant Boolean := Ex = Standard'Abort_Signal'Identity;
      Caller      : Task_Id;
      Said        : Kernel.int;
      pragma Unreferenced (Said);
   begin
      Initialization.Defer_Abort_Nestable (Self_Id);
      Caller := To_Task (Kernel.Caller_Of (0));
      if Caller /= null and then not Is_By_Abort then
         Transfer_Occurrence
           (Caller.Common.Compiler_Data.Current_Excep'Access, Self_Id.Common.Compiler_Data.Current_Excep);
      end if;
      Said := Kernel.End_Rendezvous (To_Address (Ex), Boolean'Pos (Is_By_Abort));
      Initialization.Undefer_Abort_Nestable (Self_Id);
      Reraise;
   end Exceptional_Complete_Rendezvous;

   ---------------
   --  Requeue  --
   ---------------

   procedure Requeue_Protected_To_Task_Entry
     (Object : STPE.Protection_Entries_Access; Acceptor : Task_Id; E : Task_Entry_Index; With_Abort : Boolean)
   is
      pragma Unreferenced (Object, Acceptor, E, With_Abort);
   begin
      Kernel.Raise_Not_Played ("requeue");
   end Requeue_Protected_To_Task_Entry;

   procedure Requeue_Task_Entry (Acceptor : Task_Id; E : Task_Entry_Index; With_Abort : Boolean) is
      pragma Unreferenced (Acceptor, E, With_Abort);
   begin
      Kernel.Raise_Not_Played ("requeue");
   end Requeue_Task_Entry;

   procedure Requeue_Task_To_Protected
     with Export, Convention => Ada,
          External_Name => "system__tasking__protected_objects__operations__requeue_task_to_protected_entry";
   --  In the place of GNAT's, which looks for a call in a control block; adatask-gnat has the linker prefer this one

   procedure Requeue_Task_To_Protected is
   begin
      Kernel.Raise_Not_Played ("requeue");
   end Requeue_Task_To_Protected;

   function Task_Do_Or_Queue (Self_ID : Task_Id; Entry_Call : Entry_Call_Link) return Boolean is
      pragma Unreferenced (Self_ID, Entry_Call);
   begin
      Kernel.Raise_Not_Played ("requeue");
      return False;
   end Task_Do_Or_Queue;

   ------------------
   --  Attributes  --
   ------------------

   function Callable (T : Task_Id) return Boolean is
      Self_Id : constant Task_Id := STPO.Self;
      Result  : Boolean;
   begin
      Initialization.Defer_Abort_Nestable (Self_Id);
      Result := Kernel.Is_Callable (Kernel.Place (T)) /= 0;
      Initialization.Undefer_Abort_Nestable (Self_Id);
      return Result;
   end Callable;

   function Task_Count (E : Task_Entry_Index) return Natural is
      Self_Id : constant Task_Id := STPO.Self;
      Result  : Natural;
   begin
      Initialization.Defer_Abort_Nestable (Self_Id);
      Result := Natural (Kernel.Count_Of (Kernel.unsigned (E)));
      Initialization.Undefer_Abort_Nestable (Self_Id);
      return Result;
   end Task_Count;

   function Task_Entry_Caller (D : Task_Entry_Nesting_Depth) return Task_Id is
     (To_Task (Kernel.Caller_Of (Kernel.unsigned (D))));

end System.Tasking.Rendezvous;
