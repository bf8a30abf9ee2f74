--  SPDX-License-Identifier: MIT

with Ada.Unchecked_Conversion;
with System.OS_Primitives;
with System.Soft_Links;
with System.Task_Primitives.Operations;
with System.Tasking.Initialization;
pragma Elaborate_All (System.Tasking.Initialization);

package body System.Tasking.Kernel is

   package STPO renames System.Task_Primitives.Operations;
   package OSP renames System.OS_Primitives;

   function To_Task is new Ada.Unchecked_Conversion (System.Address, Task_Id);
   function To_Address is new Ada.Unchecked_Conversion (Task_Id, System.Address);
   function To_Bits is new Ada.Unchecked_Conversion (Duration, Interfaces.Integer_64);

   function Begin_Program (Environment, Mark : System.Address) return unsigned
     with Import, Convention => C, External_Name => "adagnat_begin";

   procedure Mark_Aborted (Block : System.Address) with Convention => C;
   --  The kernel completed this task by an abort: its thread ends where abort isn't deferred any more

   procedure Timed_Delay (Time : Duration; Mode : Integer);
   --  In the place of GNAT's, by its soft link

   procedure Mark_Aborted (Block : System.Address) is
      T : constant Task_Id := To_Task (Block);
   begin
      STPO.Write_Lock (T);
      Initialization.Locked_Abort_To_Level (STPO.Self, T, Level_Completed_Task);
      STPO.Unlock (T);
   end Mark_Aborted;

   procedure Set_Place (T : Task_Id; Place : unsigned) is
   begin
      T.Alive_Count := Natural (Place);
   end Set_Place;

   procedure Begin_Operation (Self_Id : Task_Id) is
   begin
      Initialization.Defer_Abort_Nestable (Self_Id);
      Self_Id.Common.State := Activator_Sleep;
   end Begin_Operation;

   --  A task that terminated with others isn't aborted for GNAT, so its end is brought about here
   procedure End_Operation (Self_Id : Task_Id; Said : int) is
   begin
      Self_Id.Common.State := Runnable;
      if Said = Gone and then Has_Quit /= 0 then
         Self_Id.Callable := False;
         Self_Id.Pending_ATC_Level := Level_Completed_Task;
         Self_Id.Pending_Action := True;
      end if;
      Initialization.Undefer_Abort_Nestable (Self_Id);
      if Said = Gone and then Self_Id.Deferral_Level = 0 then
         raise Standard'Abort_Signal;
      end if;
   end End_Operation;

   procedure Check_Not_Protected (Self_Id : Task_Id) is
   begin
      if Detect_Blocking and then Self_Id.Common.Protected_Action_Nesting > 0 then
         raise Program_Error with "potentially blocking operation";
      end if;
   end Check_Not_Protected;

   --  The numbers are those of glue.h. A raise statement of a unit of the run time would put its own name before the
   --  message.
   procedure Raise_Refused (Said : int) is
      use Ada.Exceptions;
   begin
      case Said is
         when 6 =>
            Raise_Exception (Storage_Error'Identity, "adatask: more than 256 tasks at a time");
         when 7 =>
            Raise_Exception (Storage_Error'Identity, "adatask: more than 1,024 entries of all tasks at a time");
         when 8 =>
            Raise_Exception
              (Storage_Error'Identity, "adatask: more than 32 blocks with tasks and rendezvous within each other");
         when 9 =>
            Raise_Exception (Program_Error'Identity, "adatask: more than 16 open alternatives of a select");
         when 10 =>
            Raise_Exception
              (Program_Error'Identity, "adatask: an accept within another, in a task with more than 16 entries");
         when 11 =>
            Raise_Exception (Storage_Error'Identity, "adatask: no memory");
         when 12 =>
            Raise_Exception (Program_Error'Identity, "adatask: a tasking operation of a thread that isn't a task");
         when others =>
            Raise_Exception (Program_Error'Identity, "adatask: the kernel refused a request");
      end case;
   end Raise_Refused;

   procedure Raise_Not_Played (What : String) is
   begin
      Ada.Exceptions.Raise_Exception
        (Program_Error'Identity, "adatask: " & What & " isn't in Ada 83, and isn't played by the kernel");
   end Raise_Not_Played;

   function From_Now (Time : Duration; Mode : Integer) return Nanoseconds is
   begin
      if Mode = OSP.Relative then
         return To_Bits (Time);
      elsif Mode = OSP.Absolute_Calendar then
         return To_Bits (Time - OSP.Clock);
      else
         return To_Bits (Time - STPO.Monotonic_Clock);
      end if;
   end From_Now;

   --  A task that was never activated has the data that its thread would have given back
   procedure Give_Back (Block : System.Address) is
      T : constant Task_Id := To_Task (Block);
   begin
      if T.Common.State = Unactivated then
         System.Soft_Links.Destroy_TSD (T.Common.Compiler_Data);
      end if;
      STPO.Lock_RTS;
      Initialization.Remove_From_All_Tasks_List (T);
      STPO.Unlock_RTS;
      STPO.Finalize_TCB (T);
   end Give_Back;

   procedure Timed_Delay (Time : Duration; Mode : Integer) is
      Self_Id : constant Task_Id := STPO.Self;
      Said    : int;
   begin
      Check_Not_Protected (Self_Id);
      Begin_Operation (Self_Id);
      Said := Delay_For (From_Now (Time, Mode));
      End_Operation (Self_Id, Said);
      if Said > Raises_Program_Error then
         Raise_Refused (Said);
      end if;
   end Timed_Delay;

begin
   Set_Place
     (STPO.Environment_Task, Begin_Program (To_Address (STPO.Environment_Task), Mark_Aborted'Address));
   System.Soft_Links.Timed_Delay := Timed_Delay'Access;
end System.Tasking.Kernel;
