--  SPDX-License-Identifier: MIT
--  The kernel that goes along with lockstep.adb. Each report is one protected action, so reports are ordered. If the
--  kernel refuses one, or what was done isn't what the rules force, the program says so with the line of the report,
--  and ends with status 1. GNAT tells the line: a default parameter is evaluated at its call.

with Ada.Real_Time;
with Adatask;          use Adatask;
with GNAT.Source_Info; use GNAT.Source_Info;

package Lockstep_Rules is

   --  What a server offers at a wait.
   type Offer is record
      Item    : Entry_Name;
      Is_Open : Boolean := True;
   end record;
   type Offers is array (Place range <>) of Offer;

   --  A call, as its caller makes it; Length is that of a timed one.
   type Call_Made is record
      Caller, Callee : Task_Number := Main_Program;
      Item           : Entry_Name;
      Kind           : Call_Kind := Simple;
      Length         : Milliseconds := 0;
   end record;

   protected Rules is

      procedure Open_Block (By : Task_Number; Block : out Position; Where : String := Source_Location);
      procedure Make_Task
        (Block : Position; Entries : Family_List; Made : out Task_Number; Where : String := Source_Location);
      procedure Start (Tasks : Task_List; Where : String := Source_Location);
      procedure Come_Up (T : Task_Number; Where : String := Source_Location);
      procedure Complete (T : Task_Number; Where : String := Source_Location);
      procedure Close_Block (By : Task_Number; Where : String := Source_Location);
      procedure Abort_Task (By, Victim : Task_Number; Where : String := Source_Location);
      procedure Begin_Delay (By : Task_Number; Length : Milliseconds; Where : String := Source_Location);

      --  The moment is the time since the program began.
      procedure Tick (Where : String := Source_Location);

      --  A call and a wait, reported before they are made: the kernel says what must come of them.
      procedure Call (Made : Call_Made; Where : String := Source_Location);
      procedure Wait
        (By : Task_Number; Choices : Offers; Last : Last_Part := Nothing; Where : String := Source_Location);

      --  The task has accepted a call of this caller by this alternative.
      procedure Has_Accepted
        (By, Caller : Task_Number; Alternative : Place; Where : String := Source_Location);

      --  A call and the wait that has accepted it, reported in the accept statement.
      procedure Meet
        (Made : Call_Made; Choices : Offers; Last : Last_Part; Alternative : Place;
         Where : String := Source_Location);

      procedure End_Rendezvous (By : Task_Number; Where : String := Source_Location);

      --  This became of the task's latest call, wait, delay, activation or close.
      procedure Expect (T : Task_Number; Became : Outcome_Kind; Where : String := Source_Location);

      --  These are the attributes of the task, and COUNT of an entry of its own.
      procedure Compare
        (T : Task_Number; Is_Callable, Is_Terminated : Boolean; Where : String := Source_Location);
      procedure Compare_Count
        (By : Task_Number; Item : Entry_Name; Waiting : Natural; Where : String := Source_Location);

      --  How many rendezvous there were.
      procedure Count_Meetings (Number : out Natural);

   private
      K      : Kernel;
      Latest : Position := 0;  --  the event of the latest request
      Began  : Ada.Real_Time.Time := Ada.Real_Time.Clock;
   end Rules;

   --  Says at which line the program and the rules part, and ends it.
   procedure Disagree (Where, What : String; Status : Integer := 1);

end Lockstep_Rules;
