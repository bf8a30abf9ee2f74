--  SPDX-License-Identifier: MIT
--  The lock is no protected action, since none may contain an abort statement. It is taken as an object is initialized
--  and released as it is finalized: both are done whole, whatever is aborted in between (Ada 95, 9.8).

with Ada.Characters.Handling;
with Ada.Real_Time;
with Ada.Strings.Fixed;
with Ada.Task_Attributes;
with Ada.Text_IO;

package body Tasking_Trace is

   Most_Characters : constant := 200;
   Most_Masters    : constant := 4_096;
   Most_Announced  : constant := 256;

   --  What a line begins with that was announced and isn't over: a comment of the script language.
   Mark : constant String := "#? ";

   --  How often the watching task looks whether the main program is over.
   Look_Every : constant Duration := 0.1;

   --  A name, with blanks after it.
   subtype Name_Text is String (1 .. 16);
   No_Name : constant Name_Text := (others => ' ');

   type Statement_Text is record
      Length : Natural := 0;
      Words  : String (1 .. Most_Characters) := (others => ' ');
   end record;
   No_Statement : constant Statement_Text := (Length => 0, Words => (others => ' '));

   --  Of the rendezvous that a task is in, innermost last, the bits of those that aren't written.
   type Rendezvous_Stack is mod 2 ** 64;

   --  What is known of a task: its name, and what it announced and wasn't written yet. A call stands there twice, as it
   --  is written if it was accepted, and if it wasn't.
   type Doing is record
      Own_Name            : Name_Text := No_Name;
      Call, Failing, Wait : Statement_Text := No_Statement;
      Is_Try              : Boolean := False;
      Left_Out            : Rendezvous_Stack := 0;
   end record;

   No_Doing : constant Doing :=
     (Own_Name => No_Name, Call | Failing | Wait => No_Statement, Is_Try => False, Left_Out => 0);

   package Doings is new Ada.Task_Attributes (Doing, No_Doing);

   --  The tasks and blocks, with what each stands under; so an abort is known to reach dependents (9.10).
   type Master is record
      Own_Name, Under : Name_Text := No_Name;
      Is_Aborted      : Boolean := False;
   end record;

   --  What a task announced, and isn't over.
   type Announcement is record
      Speaker   : Name_Text := No_Name;
      Statement : Statement_Text := No_Statement;
   end record;

   --  Dumps after a silence; it is there only if it is asked for.
   task type Watcher;
   type Watcher_Access is access Watcher;

   File    : Ada.Text_IO.File_Type;
   Began   : Ada.Real_Time.Time;
   Moment  : Natural := 0;
   Masters : array (1 .. Most_Masters) of Master;
   Made    : Natural := 0;

   --  Oldest first; when these or the log changed last, and whether they were dumped since.
   Announcements : array (1 .. Most_Announced) of Announcement;
   Announced     : Natural := 0;
   Changed       : Ada.Real_Time.Time;
   Is_Dumped     : Boolean := False;
   Watching      : Watcher_Access;
   Patience      : Duration := 0.0;

   ----------------
   --  The lock  --
   ----------------

   protected Lock is
      entry Seize;
      procedure Release;
   private
      Is_Held : Boolean := False;
   end Lock;

   protected body Lock is

      entry Seize when not Is_Held is
      begin
         Is_Held := True;
      end Seize;

      procedure Release is
      begin
         Is_Held := False;
      end Release;

   end Lock;

   --  Holds the lock as long as it is there.
   type Holder is new Ada.Finalization.Limited_Controlled with null record;
   overriding procedure Initialize (Object : in out Holder);
   overriding procedure Finalize (Object : in out Holder);

   overriding procedure Initialize (Object : in out Holder) is
      pragma Unreferenced (Object);
   begin
      Lock.Seize;
   end Initialize;

   overriding procedure Finalize (Object : in out Holder) is
      pragma Unreferenced (Object);
   begin
      Lock.Release;
   end Finalize;

   -------------
   --  Words  --
   -------------

   function Is_Name (Word : String) return Boolean is
     (Word'Length in 1 .. Name_Text'Last and then Ada.Characters.Handling.Is_Letter (Word (Word'First))
      and then (for all C of Word => C in 'A' .. 'Z' | 'a' .. 'z' | '0' .. '9' | '_'));

   function Name_Of (Word : String) return Name_Text is
   begin
      if not Is_Name (Word) then
         raise Bad_Line with "no name: " & Word;
      end if;
      return Word & (1 .. Name_Text'Last - Word'Length => ' ');
   end Name_Of;

   function Word_Of (Item : Name_Text) return String is (Ada.Strings.Fixed.Trim (Item, Ada.Strings.Right));

   function Text_Of (Words : String) return Statement_Text is
   begin
      if Words'Length > Most_Characters then
         raise Bad_Line with "more than 200 characters: " & Words (Words'First .. Words'First + 20);
      end if;
      return (Words'Length, Words & (1 .. Most_Characters - Words'Length => ' '));
   end Text_Of;

   function Image (Number : Natural) return String is (Ada.Strings.Fixed.Trim (Number'Image, Ada.Strings.Left));

   --  Rounded down, as a length that is too long would end too late.
   function Milliseconds (Length : Duration) return Natural is (Natural (Duration'Max (Length * 1_000 - 0.5, 0.0)));

   --  A statement of a task; nothing if there is none.
   function Line_Of (Speaker : Name_Text; Statement : Statement_Text) return String is
     (if Statement.Length = 0 then "" else Word_Of (Speaker) & ": " & Statement.Words (1 .. Statement.Length));

   function Own_Line (Statement : String) return String is
     (Line_Of (Name_Of (Word_Of (Doings.Value.Own_Name)), Text_Of (Statement)));

   -------------
   --  Lines  --
   -------------

   procedure Check_Length (Line : String) is
   begin
      if Line'Length > Most_Characters then
         raise Bad_Line with "more than 200 characters: " & Line (Line'First .. Line'First + 20);
      end if;
   end Check_Length;

   procedure Note_Change is
   begin
      Changed := Ada.Real_Time.Clock;
      Is_Dumped := False;
   end Note_Change;

   --  Writes a line, if there is one; the lock is held.
   procedure Put (Line : String) is
   begin
      Check_Length (Line);
      if Line /= "" and then Ada.Text_IO.Is_Open (File) then
         Ada.Text_IO.Put_Line (File, Line);
         Ada.Text_IO.Flush (File);
         Note_Change;
      end if;
   end Put;

   --  What a task announced is over; the lock is held.
   procedure Forget (Speaker : Name_Text) is
      Kept : Natural := 0;
   begin
      for A of Announcements (1 .. Announced) loop
         if A.Speaker /= Speaker then
            Kept := Kept + 1;
            Announcements (Kept) := A;
         end if;
      end loop;
      Announced := Kept;
   end Forget;

   --  A task has a name from the end of its activation on.
   procedure Announce (Speaker : Name_Text; Statement : Statement_Text) is
      Hold : Holder;
      pragma Unreferenced (Hold);
   begin
      Check_Length (Mark & Line_Of (Speaker, Statement));
      Forget (Speaker);
      if Announced < Most_Announced and then Speaker /= No_Name then
         Announced := Announced + 1;
         Announcements (Announced) := (Speaker, Statement);
         Note_Change;
      end if;
   end Announce;

   --  Writes a line of the calling task, which has gone on; the lock is held.
   procedure Put_Own (Line : String) is
   begin
      Put (Line);
      Forget (Doings.Value.Own_Name);
   end Put_Own;

   procedure Write (Line : String) is
      Hold : Holder;
      pragma Unreferenced (Hold);
   begin
      Put_Own (Line);
   end Write;

   --  Writes a line that makes a master.
   procedure Write_Master (Line : String; Made_Name, Under : Name_Text) is
      Hold : Holder;
      pragma Unreferenced (Hold);
   begin
      if Made = Most_Masters then
         raise Bad_Line with "there are 4,096 tasks and blocks";
      end if;
      Put_Own (Line);
      Made := Made + 1;
      Masters (Made) := (Made_Name, Under, Is_Aborted => False);
   end Write_Master;

   --------------
   --  Aborts  --
   --------------

   --  Whether a name stands among names that are separated by blanks.
   function Is_Among (Item : Name_Text; Names : String) return Boolean is
     (Ada.Strings.Fixed.Index (" " & Names & " ", " " & Word_Of (Item) & " ") > 0);

   function Is_Aborted (Item : Name_Text) return Boolean is
     (for some M of Masters (1 .. Made) => M.Own_Name = Item and then M.Is_Aborted);

   --  A master is older than what stands under it, so one pass marks all dependents; the lock is held.
   procedure Mark_Aborted (Names : String) is
   begin
      for M of Masters (1 .. Made) loop
         M.Is_Aborted := M.Is_Aborted or else Is_Among (M.Own_Name, Names) or else Is_Aborted (M.Under);
      end loop;
   end Mark_Aborted;

   ---------------
   --  The log  --
   ---------------

   --  From here on the calling task has this name.
   procedure Begin_Doing (Name : String) is
      Now : Doing := No_Doing;
   begin
      Now.Own_Name := Name_Of (Name);
      Doings.Set_Value (Now);
   end Begin_Doing;

   procedure Open (File_Name : String; Dump_After : Duration := 0.0) is
   begin
      Ada.Text_IO.Create (File, Ada.Text_IO.Out_File, File_Name);
      Began := Ada.Real_Time.Clock;
      Moment := 0;
      Made := 0;
      Announced := 0;
      Begin_Doing ("main");
      if Dump_After > 0.0 then
         Patience := Dump_After;
         Watching := new Watcher;
      end if;
   end Open;

   --  The watching task is aborted under the lock, and so never while it holds it.
   procedure Close is
      Hold : Holder;
      pragma Unreferenced (Hold);
   begin
      Ada.Text_IO.Close (File);
      if Watching /= null then
         abort Watching.all;
         Watching := null;
      end if;
   end Close;

   -------------
   --  Dumps  --
   -------------

   --  The comment parts it from an earlier dump, which counts no more; the lock is held.
   procedure Put_Announced is
   begin
      Put ("# Announced, and not over:");
      for A of Announcements (1 .. Announced) loop
         if not Is_Aborted (A.Speaker) then
            Put (Mark & Line_Of (A.Speaker, A.Statement));
         end if;
      end loop;
      Is_Dumped := True;
   end Put_Announced;

   procedure Dump is
      Hold : Holder;
      pragma Unreferenced (Hold);
   begin
      Put_Announced;
   end Dump;

   --  Dumps what is announced if so long nothing has changed, and it wasn't dumped yet.
   procedure Dump_Once (Silence : Duration) is
      use type Ada.Real_Time.Time;
      Hold : Holder;
      pragma Unreferenced (Hold);
   begin
      if Announced > 0 and then not Is_Dumped
        and then Ada.Real_Time.To_Duration (Ada.Real_Time.Clock - Changed) >= Silence
      then
         Put_Announced;
      end if;
   end Dump_Once;

   --  The program ends only after this task, so it goes on no longer than the main program.
   task body Watcher is
   begin
      while Ada.Task_Identification.Is_Callable (Ada.Task_Identification.Environment_Task) loop
         delay Look_Every;
         Dump_Once (Patience);
      end loop;
      Dump_Once (0.0);
   end Watcher;

   ------------------------------
   --  Lines of the task's own --
   ------------------------------

   procedure Create_Task (Name : String; Under : String := "main"; Entries : String := "") is
      Line : constant String := "create " & Name & " under " & Under & (if Entries = "" then "" else " " & Entries);
   begin
      Write_Master (Own_Line (Line), Name_Of (Name), Name_Of (Under));
   end Create_Task;

   procedure Activate_Tasks (Names : String) is
   begin
      Write (Own_Line ("activate " & Names));
   end Activate_Tasks;

   procedure End_Activation (Name : String) is
   begin
      Begin_Doing (Name);
      Write (Own_Line ("up"));
   end End_Activation;

   function Up (Name : String) return Activation is
   begin
      End_Activation (Name);
      return (null record);
   end Up;

   procedure Fail_Activation (Name : String) is
   begin
      Begin_Doing (Name);
      Write (Own_Line ("fail"));
   end Fail_Activation;

   procedure Open_Block (Name : String) is
   begin
      Write_Master (Own_Line ("open " & Name), Name_Of (Name), Doings.Value.Own_Name);
   end Open_Block;

   procedure Close_Block is
   begin
      Write (Own_Line ("close"));
   end Close_Block;

   procedure Delay_For (Length : Duration) is
   begin
      Tick;
      Write (Own_Line ("delay " & Image (Milliseconds (Length))));
   end Delay_For;

   procedure Delay_Is_Over is
   begin
      Tick;
   end Delay_Is_Over;

   procedure Tick is
      use type Ada.Real_Time.Time;
      Now  : Natural;
      Hold : Holder;
      pragma Unreferenced (Hold);
   begin
      Now := Milliseconds (Ada.Real_Time.To_Duration (Ada.Real_Time.Clock - Began));
      if Now > Moment then
         Put ("tick " & Image (Now));
         Moment := Now;
      end if;
   end Tick;

   procedure End_Rendezvous (Raised : Boolean := False) is
      Now : Doing := Doings.Value;
   begin
      if Now.Left_Out mod 2 = 0 then
         Write (Own_Line (if Raised then "raise" else "end"));
      end if;
      Now.Left_Out := Now.Left_Out / 2;
      Doings.Set_Value (Now);
   end End_Rendezvous;

   procedure Complete_Task is
   begin
      Write (Own_Line ("complete"));
   end Complete_Task;

   procedure Abort_Tasks (Names : String; Act : not null access procedure) is
      Line : constant String := Own_Line ("abort " & Names);
      Hold : Holder;
      pragma Unreferenced (Hold);
   begin
      Put_Own (Line);
      Mark_Aborted (Names);
      Act.all;
   end Abort_Tasks;

   -----------------------
   --  Calls and waits  --
   -----------------------

   procedure Will_Call
     (Callee, Item : String; Kind : Call_Kind := Simple; Length : Duration := 0.0; At_Once : Boolean := False)
   is
      Target : constant String := Word_Of (Name_Of (Callee)) & " " & Item;
      Call   : constant String :=
        (case Kind is
            when Simple      => "call " & Target,
            when Conditional => "try " & Target,
            when Timed       => "call " & Target & " within " & Image (Milliseconds (Length)));
      Now    : Doing := Doings.Value;
   begin
      Now.Is_Try := Kind = Conditional;
      if At_Once then
         if Kind = Timed then
            Tick;
         end if;
         Write (Own_Line (Call));
      else
         Now.Call := Text_Of (Call);
         Now.Failing := Text_Of (if Kind = Timed then "call " & Target & " within 0" else Call);
         Announce (Now.Own_Name, Now.Call);
      end if;
      Doings.Set_Value (Now);
   end Will_Call;

   procedure Will_Wait (Statement : String; At_Once : Boolean := False) is
      Now : Doing := Doings.Value;
   begin
      if At_Once then
         Write (Own_Line (Statement));
      else
         Now.Wait := Text_Of (Statement);
         Announce (Now.Own_Name, Now.Wait);
         Doings.Set_Value (Now);
      end if;
   end Will_Wait;

   --  A conditional call is accepted only by a task that waits already, so it is written second. A caller whose abort
   --  was written after the rendezvous began is completed by the log: both lines and the end are left out.
   procedure Begin_Rendezvous (Caller : Ada.Task_Identification.Task_Id) is
      Mine    : Doing := Doings.Value;
      Theirs  : Doing := Doings.Value (Caller);
      Call    : constant String := Line_Of (Theirs.Own_Name, Theirs.Call);
      Wait    : constant String := Line_Of (Mine.Own_Name, Mine.Wait);
      Is_Late : Boolean;
      Hold    : Holder;
      pragma Unreferenced (Hold);
   begin
      Is_Late := Is_Aborted (Theirs.Own_Name) and then Call /= "";
      if not Is_Late then
         Put (if Theirs.Is_Try then Wait else Call);
         Put (if Theirs.Is_Try then Call else Wait);
      end if;
      Forget (Theirs.Own_Name);
      Forget (Mine.Own_Name);
      Theirs.Call := No_Statement;
      Doings.Set_Value (Theirs, Caller);
      Mine.Wait := No_Statement;
      Mine.Left_Out := Mine.Left_Out * 2 + Boolean'Pos (Is_Late);
      Doings.Set_Value (Mine);
   end Begin_Rendezvous;

   --  One that was written at once, and has timed out, has done so by now.
   procedure Call_Is_Over is
      Now : Doing := Doings.Value;
   begin
      if Now.Call.Length = 0 then
         Tick;
      else
         Write (Line_Of (Now.Own_Name, Now.Failing));
         Now.Call := No_Statement;
         Doings.Set_Value (Now);
      end if;
   end Call_Is_Over;

   procedure Wait_Is_Over (Statement : String := "") is
      Now : Doing := Doings.Value;
   begin
      Write (if Statement = "" then Line_Of (Now.Own_Name, Now.Wait) else Own_Line (Statement));
      Now.Wait := No_Statement;
      Doings.Set_Value (Now);
   end Wait_Is_Over;

   --  An aborted task writes nothing more.
   overriding procedure Finalize (Object : in out Last_Wait) is
      pragma Unreferenced (Object);
      Now  : constant Doing := Doings.Value;
      Hold : Holder;
      pragma Unreferenced (Hold);
   begin
      if not Is_Aborted (Now.Own_Name) then
         Put (Line_Of (Now.Own_Name, Now.Wait));
      end if;
      Forget (Now.Own_Name);
   end Finalize;

end Tasking_Trace;
