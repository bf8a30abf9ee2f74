--  SPDX-License-Identifier: MIT
--  Refuses memory to the library, and looks whether it is given back: a kernel that can't be made is none, a request is
--  answered Out_Of_Memory, and a kernel that is left is dropped. Prints what fails; the last line is 'N passed, M
--  failed'.

with Ada.Command_Line; use Ada.Command_Line;
with Ada.Text_IO;      use Ada.Text_IO;
with Adatask;          use Adatask;
with Interfaces.C;     use Interfaces.C;

procedure Ada_Refuse is

   Is_Refused : int with Import, Convention => C, External_Name => "memory_is_refused";
   Held       : long with Import, Convention => C, External_Name => "memory_is_held";

   Passed, Failed : Natural := 0;

   procedure Note (Is_Right : Boolean; What : String) is
   begin
      if Is_Right then
         Passed := Passed + 1;
      else
         Failed := Failed + 1;
         Put_Line ("FAILED: " & What);
      end if;
   end Note;

   procedure Leave_By_Exception is
      K : Kernel;
   begin
      Note (Held > 0 and then Tasks (K) = 1, "a kernel takes memory");
      if Open_Block (K, By => 7) = 0 then
         Note (False, "a task that isn't there opened a block");
      end if;
   end Leave_By_Exception;

   procedure Try_Leaving is
   begin
      Leave_By_Exception;
      Note (False, "a refusal wasn't raised");
   exception
      when Refused =>
         Note (Held = 0, "a kernel that was left by an exception holds memory");
   end Try_Leaving;

   procedure Try_No_Kernel is
      Said : aliased Answer;
   begin
      Is_Refused := 1;
      declare
         K : Kernel;
      begin
         Note (Tick (K, 1, Said'Access) = 0 and then Said = No_Kernel, "without memory there is a kernel");
         Renew (K, Said'Access);
         Note (Said = Out_Of_Memory, "a kernel was made without memory");
         Is_Refused := 0;
         Renew (K);
         Note (Tick (K, 1, Said'Access) = 1 and then Said = Accepted, "no kernel was made afterwards");
      end;
      Note (Held = 0, "a kernel that was left holds memory");
   end Try_No_Kernel;

   --  The kernel that was there before is given up.
   procedure Try_Renewal is
      K      : Kernel;
      Before : constant long := Held;
   begin
      Note (Tick (K, 1) = 1, "the first event");
      Renew (K);
      Note (Held = Before and then Events (K) = 0, "a renewed kernel holds what the former one held");
   end Try_Renewal;

   --  Ticks until a list has to grow.
   procedure Try_Growth is
      K        : Kernel;
      Said     : aliased Answer := Accepted;
      Accepts  : Position := 0;
      Answered : Position := 1;
   begin
      Is_Refused := 1;
      while Said = Accepted and then Accepts < 60_000 loop
         Answered := Tick (K, Milliseconds (Accepts), Said'Access);
         Accepts := Accepts + Boolean'Pos (Said = Accepted);
      end loop;
      Is_Refused := 0;
      Note (Said = Out_Of_Memory and then Answered = 0 and then Events (K) = Accepts, "a growth: " & Said'Image);
      Note (Tick (K, Milliseconds (Accepts)) = Accepts + 1, "the same request afterwards");
      Drop (K);
      Note (Held = 0, "a kernel that was dropped holds memory");
   end Try_Growth;

begin
   Try_Leaving;
   Try_No_Kernel;
   Try_Renewal;
   Try_Growth;
   Put_Line (Passed'Image (2 .. Passed'Image'Last) & " passed," & Failed'Image & " failed");
   Set_Exit_Status (if Failed = 0 then 0 else 1);
end Ada_Refuse;
