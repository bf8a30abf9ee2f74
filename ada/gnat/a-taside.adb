--  SPDX-License-Identifier: MIT
--  Identification of tasks (Ada 95, C.7.1), whose attributes the kernel knows.

with Ada.Unchecked_Conversion;
with System.Address_Image;
with System.Task_Primitives;
with System.Task_Primitives.Operations;
pragma Warnings (Off);
--  The specification is preelaborated, and the kernel's unit can't be
with System.Tasking.Kernel;
pragma Warnings (On);

package body Ada.Task_Identification with SPARK_Mode => Off is

   package STPO renames System.Task_Primitives.Operations;
   package Kernel renames System.Tasking.Kernel;
   use type Kernel.int;
   use type System.Tasking.Task_Id;

   subtype Inner is System.Tasking.Task_Id;

   procedure Check_Not_Null (T : Task_Id);

   procedure Check_Not_Null (T : Task_Id) is
   begin
      if Inner (T) = null then
         raise Program_Error;
      end if;
   end Check_Not_Null;

   function "=" (Left, Right : Task_Id) return Boolean is (Inner (Left) = Inner (Right));

   procedure Abort_Task (T : Task_Id) is
      Self_Id : constant Inner := STPO.Self;
      Said    : Kernel.int;
   begin
      Check_Not_Null (T);
      declare
         One : constant Kernel.Place_List := [Kernel.Place (Inner (T))];
      begin
         Kernel.Begin_Operation (Self_Id);
         Said := Kernel.Abort_Tasks (1, One'Address);
         Kernel.End_Operation (Self_Id, Said);
      end;
   end Abort_Task;

   function Activation_Is_Complete (T : Task_Id) return Boolean is
   begin
      Check_Not_Null (T);
      return Inner (T).Common.Activator = null;
   end Activation_Is_Complete;

   function Current_Task return Task_Id is (Task_Id (STPO.Self));

   function Environment_Task return Task_Id is (Task_Id (STPO.Environment_Task));

   function Image (T : Task_Id) return String is
      function To_Address is new Ada.Unchecked_Conversion (Task_Id, System.Task_Primitives.Task_Address);
   begin
      if Inner (T) = null then
         return "";
      elsif T.Common.Task_Image_Len = 0 then
         return System.Address_Image (To_Address (T));
      end if;
      return T.Common.Task_Image (1 .. T.Common.Task_Image_Len) & "_" & System.Address_Image (To_Address (T));
   end Image;

   function Is_Callable (T : Task_Id) return Boolean is
   begin
      Check_Not_Null (T);
      return Kernel.Is_Callable (Kernel.Place (Inner (T))) /= 0;
   end Is_Callable;

   function Is_Terminated (T : Task_Id) return Boolean is
   begin
      Check_Not_Null (T);
      return Kernel.Is_Terminated (Kernel.Place (Inner (T))) /= 0;
   end Is_Terminated;

end Ada.Task_Identification;
