--  SPDX-License-Identifier: MIT
--  Creation, activation, masters, completion and abort of tasks as the compiler asks for them, played by the kernel.

with Ada.Exceptions;
with Ada.Unchecked_Conversion;
with Interfaces.C;
with System.Soft_Links;
with System.Storage_Elements;
with System.Task_Primitives.Operations;
with System.Tasking.Debug;
with System.Tasking.Initialization;
with System.Tasking.Kernel;
pragma Elaborate_All (System.Tasking.Initialization);
pragma Elaborate_All (System.Tasking.Kernel);

package body System.Tasking.Stages is

   package STPO renames System.Task_Primitives.Operations;
   package SSL renames System.Soft_Links;
   package SSE renames System.Storage_Elements;
   use type Interfaces.C.int;

   subtype int is Kernel.int;

   function To_Address is new Ada.Unchecked_Conversion (Task_Id, System.Address);

   function Return_Address (Level : int := 0) return System.Address
     with Import, Convention => Intrinsic, External_Name => "__builtin_return_address";

   procedure Task_Wrapper (Self_Id : Task_Id) with Convention => C;
   --  Where a thread begins

   procedure End_Thread (Self_Id : Task_Id);
   --  What a thread does last

   procedure Give_Back_Dependents;
   --  Gives back the control blocks of what depended on the master that is left

   function Parent_Of_New (Self_Id : Task_Id; Master : Master_Level) return Task_Id;
   --  The task that is within a master

   procedure Initialize_Block (T : Task_Id; Place : Kernel.unsigned; Level : Master_Level; Image : String);
   --  The rest of a new control block

   Is_Finalized : Boolean := False;

   ---------------
   --  Masters  --
   ---------------

   function Current_Master return Master_Level is (STPO.Self.Master_Within);

   --  Who called tells the body of a task from a function that its declarations call
   procedure Enter_Master is
      Caller  : constant System.Address := Return_Address;
      Self_Id : constant Task_Id := STPO.Self;
      Said    : constant int := Kernel.Enter_Master (int (Self_Id.Master_Within) + 1, Caller);
   begin
      if Said /= Kernel.Ok then
         Kernel.Raise_Refused (Said);
      end if;
      Self_Id.Master_Within := Self_Id.Master_Within + 1;
   end Enter_Master;

   procedure Give_Back_Dependents is
      Block : System.Address;
   begin
      loop
         Block := Kernel.Next_Over;
         exit when Block = System.Null_Address;
         Kernel.Give_Back (Block);
      end loop;
   end Give_Back_Dependents;

   --  Abort is deferred here
   procedure Complete_Master is
      Self_Id : constant Task_Id := STPO.Self;
   begin
      Self_Id.Common.State := Activator_Sleep;
      Kernel.Complete_Master;
      Self_Id.Common.State := Runnable;
      Give_Back_Dependents;
      Kernel.Leave_Master;
      Self_Id.Master_Within := Self_Id.Master_Within - 1;
   end Complete_Master;

   ----------------
   --  Creation  --
   ----------------

   function Parent_Of_New (Self_Id : Task_Id; Master : Master_Level) return Task_Id is
      P : Task_Id := Self_Id;
   begin
      if P.Master_Of_Task <= Independent_Task_Level then
         return STPO.Environment_Task;
      end if;
      while P.Common.Parent /= null and then P.Master_Of_Task >= Master loop
         P := P.Common.Parent;
      end loop;
      return P;
   end Parent_Of_New;

   --  Debuggers find the first tasks in a table of GNAT's
   procedure Initialize_Block (T : Task_Id; Place : Kernel.unsigned; Level : Master_Level; Image : String) is
      Length : constant Natural := Integer'Min (Image'Length, T.Common.Task_Image'Length - 1);
   begin
      Kernel.Set_Place (T, Place);
      if Natural (Place) <= Debug.Known_Tasks'Last then
         T.Known_Tasks_Index := Natural (Place);
         Debug.Known_Tasks (Natural (Place)) := T;
      end if;
      T.Master_Of_Task := Level;
      T.Master_Within := Level + 1;
      for L in T.Entry_Calls'Range loop
         T.Entry_Calls (L).Self := T;
         T.Entry_Calls (L).Level := L;
      end loop;
      T.Common.Task_Image (1 .. Length) := Image (Image'First .. Image'First + Length - 1);
      T.Common.Task_Image_Len := Length;
   end Initialize_Block;

   procedure Create_Task
     (Priority             : Integer;
      Stack_Size           : System.Parameters.Size_Type;
      Secondary_Stack_Size : System.Parameters.Size_Type;
      Task_Info            : System.Task_Info.Task_Info_Type;
      CPU                  : Integer;
      Relative_Deadline    : Ada.Real_Time.Time_Span;
      Domain               : Dispatching_Domain_Access;
      Num_Entries          : Task_Entry_Index;
      Master               : Master_Level;
      State                : Task_Procedure_Access;
      Discriminants        : System.Address;
      Elaborated           : Access_Boolean;
      Chain                : in out Activation_Chain;
      Task_Image           : String;
      Created_Task         : out Task_Id)
   is
      pragma Unreferenced (CPU, Relative_Deadline);
      Self_Id : constant Task_Id := STPO.Self;
      Level   : constant Master_Level := Integer'Max (Master, Library_Task_Level);
      T, P    : Task_Id;
      Success : Boolean;
      Place   : Kernel.unsigned := 0;
      Said    : int := Kernel.Gone;
   begin
      if Master > Self_Id.Master_Within then
         raise Program_Error with "a task is made after its master is left";
      end if;
      P := Parent_Of_New (Self_Id, Master);
      Initialization.Defer_Abort_Nestable (Self_Id);
      T := STPO.New_ATCB (Num_Entries);
      STPO.Lock_RTS;
      Initialize_ATCB
        (Self_Id, State, Discriminants, P, Elaborated,
         (if Priority = Unspecified_Priority then Self_Id.Common.Base_Priority else Priority),
         Self_Id.Common.Base_CPU, Domain, Task_Info, Stack_Size, T, Success);
      STPO.Unlock_RTS;
      if Success then
         Said := Kernel.Create
           (Kernel.Place (P), int (Level), Kernel.unsigned (Num_Entries), To_Address (T), Task_Image'Address,
            Task_Image'Length, Place);
      end if;
      if Said = Kernel.Ok then
         Initialize_Block (T, Place, Level, Task_Image);
         SSL.Create_TSD (T.Common.Compiler_Data, null, Secondary_Stack_Size);
         T.Common.Activation_Link := Chain.T_ID;
         Chain.T_ID := T;
         Created_Task := T;
      elsif Success then
         T.Common.State := Terminated;
         Kernel.Give_Back (To_Address (T));
      end if;
      Initialization.Undefer_Abort_Nestable (Self_Id);
      if not Success then
         raise Storage_Error with "a control block can't be made";
      elsif Said = Kernel.Gone then
         raise Standard'Abort_Signal;
      elsif Said /= Kernel.Ok then
         Kernel.Raise_Refused (Said);
      end if;
   end Create_Task;

   ------------------
   --  Activation  --
   ------------------

   procedure Never_Runs (T : Task_Id);
   --  A task was terminated before its activation

   procedure Start_Thread (T : Task_Id);

   procedure Activate (Self_Id : Task_Id; Chain : Activation_Chain_Access; Count : Positive);
   --  Activates the tasks of a chain, which is in the reverse order of their creation

   procedure Never_Runs (T : Task_Id) is
   begin
      T.Common.State := Terminated;
      T.Common.Activator := null;
      T.Callable := False;
      SSL.Destroy_TSD (T.Common.Compiler_Data);
   end Never_Runs;

   procedure Start_Thread (T : Task_Id) is
      Success : Boolean;
   begin
      T.Common.State := Runnable;
      STPO.Create_Task
        (T, Task_Wrapper'Address, Parameters.Size_Type (T.Common.Compiler_Data.Pri_Stack_Info.Size),
         T.Common.Base_Priority, Success);
      if not Success then
         Kernel.No_Thread (Kernel.Place (T));
         Never_Runs (T);
      end if;
   end Start_Thread;

   procedure Activate (Self_Id : Task_Id; Chain : Activation_Chain_Access; Count : Positive) is
      Those  : Task_List (1 .. Count);
      Places : Kernel.Place_List (1 .. Count);
      Go     : Kernel.Flag_List (1 .. Count) := [others => 0];
      T      : Task_Id := Chain.T_ID;
      Said   : int;
   begin
      for J in reverse Those'Range loop
         Those (J) := T;
         Places (J) := Kernel.Place (T);
         T := T.Common.Activation_Link;
      end loop;
      Kernel.Begin_Operation (Self_Id);
      Said := Kernel.Activate (Kernel.unsigned (Count), Places'Address, Go'Address);
      if Said not in Kernel.Ok | Kernel.Raises_Tasking_Error then
         Kernel.End_Operation (Self_Id, Said);
         Kernel.Raise_Refused (Said);
      end if;
      Chain.T_ID := null;
      for J in Those'Range loop
         Those (J).Common.Activation_Link := null;
         if Go (J) /= 0 then
            Start_Thread (Those (J));
         else
            Never_Runs (Those (J));
         end if;
      end loop;
      Said := Kernel.Await_Activation;
      Kernel.End_Operation (Self_Id, Said);
      if Said = Kernel.Raises_Tasking_Error then
         raise Tasking_Error with "an activation failed";
      end if;
   end Activate;

   procedure Activate_Tasks (Chain_Access : Activation_Chain_Access) is
      T     : Task_Id := Chain_Access.T_ID;
      Count : Natural := 0;
   begin
      while T /= null loop
         Count := Count + 1;
         if T.Common.Elaborated /= null and then not T.Common.Elaborated.all then
            raise Program_Error with "the body of a task isn't elaborated yet";
         end if;
         T := T.Common.Activation_Link;
      end loop;
      if Count > 0 then
         Activate (STPO.Self, Chain_Access, Count);
      end if;
   end Activate_Tasks;

   procedure Complete_Activation is
      Self_Id : constant Task_Id := STPO.Self;
      Said    : int;
   begin
      Kernel.Begin_Operation (Self_Id);
      Self_Id.Common.Activator := null;
      Said := Kernel.Elaborated;
      Kernel.End_Operation (Self_Id, Said);
   end Complete_Activation;

   --  The tasks of an allocator or of declarations that failed: nobody can name them
   procedure Expunge_Unactivated_Tasks (Chain : in out Activation_Chain) is
      Self_Id : constant Task_Id := STPO.Self;
      T       : Task_Id := Chain.T_ID;
      Next    : Task_Id;
   begin
      Initialization.Defer_Abort_Nestable (Self_Id);
      Chain.T_ID := null;
      while T /= null loop
         Next := T.Common.Activation_Link;
         Never_Runs (T);
         Kernel.Expunge (Kernel.Place (T));
         Kernel.Give_Back (To_Address (T));
         T := Next;
      end loop;
      Initialization.Undefer_Abort_Nestable (Self_Id);
   end Expunge_Unactivated_Tasks;

   --  A task that a function returns has another master then, which the kernel can't give it
   procedure Move_Activation_Chain (From, To : Activation_Chain_Access; New_Master : Master_ID) is
      T : Task_Id := From.T_ID;
   begin
      if T = null then
         return;
      end if;
      loop
         if T.Master_Of_Task /= New_Master then
            Kernel.Raise_Not_Played ("a function that returns a task");
         end if;
         exit when T.Common.Activation_Link = null;
         T := T.Common.Activation_Link;
      end loop;
      T.Common.Activation_Link := To.T_ID;
      To.T_ID := From.T_ID;
      From.T_ID := null;
   end Move_Activation_Chain;

   ---------------
   --  Threads  --
   ---------------

   procedure Run_Handler (Self_Id : Task_Id; Cause : Cause_Of_Termination; X : Ada.Exceptions.Exception_Occurrence);
   --  Calls the handler for the end of a task (C.7.3 of Ada 2005), its own or that of a task on which it depends

   procedure Note_Unhandled (Name : String);
   --  The task ends by an exception of this name

   procedure Run_Handler (Self_Id : Task_Id; Cause : Cause_Of_Termination; X : Ada.Exceptions.Exception_Occurrence) is
      Handler : Termination_Handler := Self_Id.Common.Specific_Handler;
      P       : Task_Id := Self_Id.Common.Parent;
   begin
      if Handler = null and then Self_Id.Master_Of_Task /= Independent_Task_Level then
         while P /= null and then Handler = null loop
            Handler := P.Common.Fall_Back_Handler;
            P := P.Common.Parent;
         end loop;
      end if;
      if Handler /= null then
         Handler.all (Cause, Self_Id, X);
      end if;
   exception
      when others => null;
   end Run_Handler;

   procedure Note_Unhandled (Name : String) is
   begin
      Kernel.Unhandled (Name'Address, Name'Length);
   end Note_Unhandled;

   procedure Task_Wrapper (Self_Id : Task_Id) is
      use Ada.Exceptions;
      Alternate_Stack : aliased SSE.Storage_Array (1 .. Task_Primitives.Alternate_Stack_Size);
      Cause           : Cause_Of_Termination := Normal;
      Occurrence      : Exception_Occurrence;
   begin
      Self_Id.Common.Task_Alternate_Stack := Alternate_Stack'Address;
      STPO.Stack_Guard (Self_Id, True);
      STPO.Enter_Task (Self_Id);
      Kernel.Thread_Begins (Kernel.Place (Self_Id));
      Save_Occurrence (Occurrence, Null_Occurrence);
      begin
         Self_Id.Common.Task_Entry_Point (Self_Id.Common.Task_Arg);
         Initialization.Defer_Abort_Nestable (Self_Id);
      exception
         when Standard'Abort_Signal =>
            Initialization.Defer_Abort_Nestable (Self_Id);
            Cause := (if Kernel.Has_Quit /= 0 then Normal else Abnormal);
         when others =>
            Initialization.Defer_Abort_Nestable (Self_Id);
            Cause := Unhandled_Exception;
            Save_Occurrence (Occurrence, SSL.Get_Current_Excep.all.all);
            Note_Unhandled (Exception_Name (Occurrence));
      end;
      Run_Handler (Self_Id, Cause, Occurrence);
      End_Thread (Self_Id);
   end Task_Wrapper;

   --  A task that was aborted before its body began, or whose activation failed, hasn't come by Complete_Task
   procedure End_Thread (Self_Id : Task_Id) is
   begin
      STPO.Stack_Guard (Self_Id, False);
      Complete_Task;
      Initialization.Task_Lock (Self_Id);
      Initialization.Finalize_Attributes (Self_Id);
      SSL.Destroy_TSD (Self_Id.Common.Compiler_Data);
      Initialization.Final_Task_Unlock (Self_Id);
      Self_Id.Common.State := Terminated;
      if Kernel.Thread_Ends /= 0 then
         Kernel.Give_Back (To_Address (Self_Id));
      end if;
      STPO.Exit_Task;
   end End_Thread;

   procedure Terminate_Task (Self_ID : Task_Id) is
   begin
      End_Thread (Self_ID);
   end Terminate_Task;

   ------------------
   --  Completion  --
   ------------------

   procedure Complete_Task is
      Self_Id : constant Task_Id := STPO.Self;
   begin
      Self_Id.Callable := False;
      Self_Id.Common.Activator := null;
      Self_Id.Common.State := Activator_Sleep;
      Kernel.Complete;
      Self_Id.Common.State := Runnable;
      Give_Back_Dependents;
   end Complete_Task;

   function Terminated (T : Task_Id) return Boolean is
      Self_Id : constant Task_Id := STPO.Self;
      Result  : Boolean;
   begin
      Initialization.Defer_Abort_Nestable (Self_Id);
      Result := Kernel.Is_Terminated (Kernel.Place (T)) /= 0;
      Initialization.Undefer_Abort_Nestable (Self_Id);
      return Result;
   end Terminated;

   procedure Free_Task (T : Task_Id) is
      Self_Id : constant Task_Id := STPO.Self;
   begin
      Initialization.Defer_Abort_Nestable (Self_Id);
      if Kernel.Free (Kernel.Place (T)) /= 0 then
         Kernel.Give_Back (To_Address (T));
      end if;
      Initialization.Undefer_Abort_Nestable (Self_Id);
   end Free_Task;

   procedure Abort_Tasks (Tasks : Task_List) is
      Self_Id : constant Task_Id := STPO.Self;
      Places  : Kernel.Place_List (1 .. Tasks'Length);
      Said    : int;
   begin
      for J in Places'Range loop
         Places (J) := Kernel.Place (Tasks (Tasks'First + J - 1));
      end loop;
      Kernel.Begin_Operation (Self_Id);
      Said := Kernel.Abort_Tasks (Places'Length, Places'Address);
      Kernel.End_Operation (Self_Id, Said);
   end Abort_Tasks;

   --------------------------------
   --  The end of the program  --
   --------------------------------

   procedure Abort_Servers;
   --  GNAT's own tasks, for timers and interrupts, never end by themselves

   procedure Leave_Tasking;
   --  From now on the run time does without tasks

   procedure Abort_Servers is
      Most   : constant := 256;
      Places : Kernel.Place_List (1 .. Most);
      Count  : Natural := 0;
      T      : Task_Id;
   begin
      STPO.Lock_RTS;
      T := All_Tasks_List;
      while T /= null and then Count < Most loop
         if T.Master_Of_Task = Independent_Task_Level and then T.Common.State /= Terminated then
            Count := Count + 1;
            Places (Count) := Kernel.Place (T);
         end if;
         T := T.Common.All_Tasks_Link;
      end loop;
      STPO.Unlock_RTS;
      if Count > 0 then
         Kernel.Abort_Servers (Kernel.unsigned (Count), Places'Address);
      end if;
   end Abort_Servers;

   procedure Leave_Tasking is
   begin
      SSL.Abort_Defer := SSL.Abort_Defer_NT'Access;
      SSL.Abort_Undefer := SSL.Abort_Undefer_NT'Access;
      SSL.Lock_Task := SSL.Task_Lock_NT'Access;
      SSL.Unlock_Task := SSL.Task_Unlock_NT'Access;
      SSL.Get_Jmpbuf_Address := SSL.Get_Jmpbuf_Address_NT'Access;
      SSL.Set_Jmpbuf_Address := SSL.Set_Jmpbuf_Address_NT'Access;
      SSL.Get_Sec_Stack := SSL.Get_Sec_Stack_NT'Access;
      SSL.Set_Sec_Stack := SSL.Set_Sec_Stack_NT'Access;
      SSL.Check_Abort_Status := SSL.Check_Abort_Status_NT'Access;
      SSL.Get_Stack_Info := SSL.Get_Stack_Info_NT'Access;
   end Leave_Tasking;

   procedure Finalize_Global_Tasks is
      use type SSL.No_Param_Proc;
      Self_Id : constant Task_Id := STPO.Self;
   begin
      if Self_Id.Deferral_Level = 0 then
         Initialization.Defer_Abort_Nestable (Self_Id);
      end if;
      if not Is_Finalized then
         Is_Finalized := True;
         Self_Id.Callable := False;
         Abort_Servers;
         Kernel.Complete;
      end if;
      SSL.Task_Termination_Handler.all (Ada.Exceptions.Null_Occurrence);
      if SSL.Finalize_Library_Objects /= null then
         SSL.Finalize_Library_Objects.all;
      end if;
      Kernel.Finish;
      Leave_Tasking;
   end Finalize_Global_Tasks;

begin
   Kernel.Threads_Begin_At (Task_Wrapper'Address);
   SSL.Adafinal := Finalize_Global_Tasks'Access;
   SSL.Current_Master := Stages.Current_Master'Access;
   SSL.Enter_Master := Stages.Enter_Master'Access;
   SSL.Complete_Master := Stages.Complete_Master'Access;
end System.Tasking.Stages;
