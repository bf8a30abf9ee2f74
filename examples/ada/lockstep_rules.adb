--  SPDX-License-Identifier: MIT

with Ada.Text_IO; use Ada.Text_IO;
with GNAT.OS_Lib;

package body Lockstep_Rules is

   procedure Disagree (Where, What : String; Status : Integer := 1) is
   begin
      Put_Line (Standard_Error, Where & ": " & What);
      GNAT.OS_Lib.OS_Exit (Status);
   end Disagree;

   --  The program and the rules part if a request was refused.
   procedure Settle (Said : Answer; Where : String) is
   begin
      if Said /= Accepted then
         Disagree (Where, "refused: " & Said'Image);
      end if;
   end Settle;

   function Choices_Of (Choices : Offers) return Choice_List is
      All_Choices : Choice_List (Choices'Range);
   begin
      for I in Choices'Range loop
         All_Choices (I) := (Item => Choices (I).Item, Is_Open => Flag (Choices (I).Is_Open));
      end loop;
      return All_Choices;
   end Choices_Of;

   protected body Rules is

      procedure Open_Block (By : Task_Number; Block : out Position; Where : String := Source_Location) is
         Said : aliased Answer;
      begin
         Latest := Open_Block (K, By, Said'Access);
         Settle (Said, Where);
         Block := Latest;
      end Open_Block;

      procedure Make_Task
        (Block : Position; Entries : Family_List; Made : out Task_Number; Where : String := Source_Location)
      is
         Said : aliased Answer;
      begin
         Latest := Create_Task (K, Main_Program, (A_Block, Block), Entries, Said'Access);
         Settle (Said, Where);
         Made := Tasks (K) - 1;
      end Make_Task;

      procedure Start (Tasks : Task_List; Where : String := Source_Location) is
         Said : aliased Answer;
      begin
         Latest := Activate_Tasks (K, Main_Program, Tasks, Said'Access);
         Settle (Said, Where);
      end Start;

      procedure Come_Up (T : Task_Number; Where : String := Source_Location) is
         Said : aliased Answer;
      begin
         Latest := End_Activation (K, T, Said => Said'Access);
         Settle (Said, Where);
      end Come_Up;

      procedure Complete (T : Task_Number; Where : String := Source_Location) is
         Said : aliased Answer;
      begin
         Latest := Complete_Task (K, T, Said'Access);
         Settle (Said, Where);
      end Complete;

      procedure Close_Block (By : Task_Number; Where : String := Source_Location) is
         Said : aliased Answer;
      begin
         Latest := Close_Block (K, By, Said'Access);
         Settle (Said, Where);
      end Close_Block;

      procedure Abort_Task (By, Victim : Task_Number; Where : String := Source_Location) is
         Said : aliased Answer;
      begin
         Latest := Abort_Tasks (K, By, (0 => Victim), Said'Access);
         Settle (Said, Where);
      end Abort_Task;

      procedure Begin_Delay (By : Task_Number; Length : Milliseconds; Where : String := Source_Location) is
         Said : aliased Answer;
      begin
         Latest := Delay_For (K, By, Length, Said'Access);
         Settle (Said, Where);
      end Begin_Delay;

      procedure Tick (Where : String := Source_Location) is
         use type Ada.Real_Time.Time;
         Passed : constant Duration := Ada.Real_Time.To_Duration (Ada.Real_Time.Clock - Began);
         Said   : aliased Answer;
      begin
         Latest := Tick (K, Milliseconds (Duration'Max (Passed * 1_000 - 0.5, 0.0)), Said'Access);
         Settle (Said, Where);
      end Tick;

      procedure Call (Made : Call_Made; Where : String := Source_Location) is
         Said : aliased Answer;
      begin
         Latest := Call_Entry (K, Made.Caller, Made.Callee, Made.Item, Made.Kind, Made.Length, Said'Access);
         Settle (Said, Where);
      end Call;

      procedure Wait
        (By : Task_Number; Choices : Offers; Last : Last_Part := Nothing; Where : String := Source_Location)
      is
         Said : aliased Answer;
      begin
         Latest := Selective_Wait (K, By, Choices_Of (Choices), Last, Said => Said'Access);
         Settle (Said, Where);
      end Wait;

      procedure Has_Accepted
        (By, Caller : Task_Number; Alternative : Place; Where : String := Source_Location)
      is
         Forced : constant Outcome := Outcome_Of (K, By);
         Theirs : constant Task_Number := (if Forced.Call = 0 then Main_Program else Event_At (K, Forced.Call).By);
      begin
         if Forced.Kind /= Has_Accepted or else Forced.Number /= Alternative or else Theirs /= Caller then
            Disagree
              (Where, "task" & By'Image & " has accepted a call of task" & Caller'Image & " by alternative"
               & Alternative'Image & "; the rules force " & Forced.Kind'Image & ", task" & Theirs'Image
               & ", alternative" & Forced.Number'Image);
         end if;
      end Has_Accepted;

      --  A task that accepts a conditional call waits already; any other call may have come first.
      procedure Meet
        (Made : Call_Made; Choices : Offers; Last : Last_Part; Alternative : Place;
         Where : String := Source_Location)
      is
      begin
         if Made.Kind = Conditional then
            Wait (Made.Callee, Choices, Last, Where);
            Call (Made, Where);
         else
            Call (Made, Where);
            Wait (Made.Callee, Choices, Last, Where);
         end if;
         Has_Accepted (Made.Callee, Made.Caller, Alternative, Where);
      end Meet;

      procedure End_Rendezvous (By : Task_Number; Where : String := Source_Location) is
         Said : aliased Answer;
      begin
         Latest := End_Rendezvous (K, By, Said => Said'Access);
         Settle (Said, Where);
      end End_Rendezvous;

      procedure Expect (T : Task_Number; Became : Outcome_Kind; Where : String := Source_Location) is
         Forced : constant Outcome := Outcome_Of (K, T);
      begin
         if Forced.Kind /= Became then
            Disagree
              (Where, "of task" & T'Image & " became " & Became'Image & "; the rules force " & Forced.Kind'Image);
         end if;
      end Expect;

      procedure Compare
        (T : Task_Number; Is_Callable, Is_Terminated : Boolean; Where : String := Source_Location)
      is
      begin
         if Callable (K, T) /= Is_Callable or else Terminated (K, T) /= Is_Terminated then
            Disagree (Where, "task" & T'Image & " has other attributes by the rules");
         end if;
      end Compare;

      procedure Compare_Count
        (By : Task_Number; Item : Entry_Name; Waiting : Natural; Where : String := Source_Location)
      is
         Queued : constant Natural := Count_Of (K, By, Item);
      begin
         if Queued /= Waiting then
            Disagree (Where, "COUNT is" & Waiting'Image & "; by the rules" & Queued'Image);
         end if;
      end Compare_Count;

      procedure Count_Meetings (Number : out Natural) is
      begin
         Number := 0;
         for P in 1 .. Events (K) loop
            Number := Number + Boolean'Pos (Event_At (K, P).Kind = Met);
         end loop;
      end Count_Meetings;

   end Rules;

end Lockstep_Rules;
