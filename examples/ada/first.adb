--  SPDX-License-Identifier: MIT
--  Plays the first script, examples/rendezvous.tasks, and prints its journal as adatask does: after each request its
--  event, and the events that it forces.

with Ada.Text_IO; use Ada.Text_IO;
with Adatask;     use Adatask;
with Interfaces;  use Interfaces;

procedure First is

   K : Kernel;

   Server : constant Task_Number := 1;
   Client : constant Task_Number := 2;
   E      : constant Entry_Name := (Family => 0, Index => 0);

   Made : Task_Number := Main_Program;  --  the newest task of those whose creation was printed

   function Image (Number : Position) return String is
      Blank_First : constant String := Number'Image;
   begin
      return Blank_First (2 .. Blank_First'Last);
   end Image;

   function Name (T : Task_Number) return String is
     (case T is when Main_Program => "main", when Server => "S", when Client => "C", when others => "?");

   function Created_Text (At_Position : Position; Now : Event) return String is
      Families : constant String := (if Lengths_At (K, At_Position).Families = 1 then " with E(0..0)" else "");
   begin
      Made := Made + 1;
      return Name (Now.By) & " created " & Name (Made) & " under " & Name (Master_Of (Now).Owner) & Families;
   end Created_Text;

   function Started_Text (At_Position : Position; Now : Event) return String is
     (Name (Now.By) & " started " & Name (Task_At (K, At_Position, 0)) & " " & Name (Task_At (K, At_Position, 1)));

   --  The text of an event of a kind to which this script leads.
   function Text (At_Position : Position; Now : Event) return String is
     (case Now.Kind is
         when Created    => Created_Text (At_Position, Now),
         when Started    => Started_Text (At_Position, Now),
         when Elaborated => Name (Now.By) & (if Is_Ok (Now) then " up" else " failed"),
         when Activated  => "activated " & Image (Now.At_Position) & (if Is_Ok (Now) then " ok" else " failed"),
         when Called     => Name (Now.By) & " called " & Name (Now.Callee) & ".E(0)",
         when Waiting    => Name (Now.By) & " waits 0 accept E(0)",
         when Met        => "met " & Image (Now.Call) & " " & Image (Now.At_Position),
         when Ended      => Name (Now.By) & " ended " & Image (Now.Call),
         when others     => Now.Kind'Image);

   --  Prints what a request has led to: the events from the position that it was answered.
   procedure Show (Answered : Position) is
   begin
      for P in Answered .. Events (K) loop
         Put_Line (Image (P) & " " & Text (P, Event_At (K, P)));
      end loop;
   end Show;

begin
   Show (Create_Task (K, By => Main_Program, On => (A_Body, Main_Program), Entries => (0 => Single_Entry)));
   Show (Create_Task (K, By => Main_Program, On => (A_Body, Main_Program)));
   Show (Activate_Tasks (K, By => Main_Program, Tasks => (Server, Client)));
   Show (End_Activation (K, By => Server));
   Show (End_Activation (K, By => Client));
   Show (Call_Entry (K, By => Client, Callee => Server, Item => E));
   Show (Accept_Call (K, By => Server, Item => E));
   Show (End_Rendezvous (K, By => Server));
end First;
