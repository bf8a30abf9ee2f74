--  SPDX-License-Identifier: MIT
--  A server that goes on: clients come, call it, and go, on a kernel that lives on, with a real clock. The memory of
--  the kernel stays as it is, however many there are. Prints how many clients there were, and whom the server served
--  last.

with Ada.Real_Time;
with Ada.Text_IO; use Ada.Text_IO;
with Adatask;     use Adatask;

procedure Server is

   Rendezvous : constant := 10_000;
   Calls      : constant := 50;  --  of each client

   The_Server : constant Task_Number := 1;
   Service    : constant Entry_Name := (Family => 0, Index => 0);

   K       : Kernel;
   P       : Position with Unreferenced;
   Began   : constant Ada.Real_Time.Time := Ada.Real_Time.Clock;
   Clients : Task_List (0 .. 19);

   --  The milliseconds since the program began.
   function Now return Milliseconds is
      use type Ada.Real_Time.Time, Ada.Real_Time.Time_Span;
   begin
      return Milliseconds ((Ada.Real_Time.Clock - Began) / Ada.Real_Time.Milliseconds (1));
   end Now;

   --  The main program makes a task, which depends on it, and activates it.
   function New_Task (Entries : Family_List := No_Families) return Task_Number is
      T : Task_Number;
   begin
      P := Create_Task (K, Main_Program, (A_Body, Main_Program), Entries);
      T := Tasks (K) - 1;
      P := Activate_Tasks (K, Main_Program, (0 => T));
      P := End_Activation (K, T);
      return T;
   end New_Task;

   --  A client calls the server, for a second at most; the server accepts, sees who called, and ends the rendezvous.
   function Serve (Client : Task_Number) return Task_Number is
      Caller : Task_Number;
   begin
      Set_Clock (K, Now);
      P := Call_Entry (K, Client, The_Server, Service, Timed, 1_000);
      P := Accept_Call (K, The_Server, Service);
      Caller := Outcome_Of (K, The_Server).Caller;
      P := End_Rendezvous (K, The_Server);
      return Caller;
   end Serve;

   --  A client goes, and may not be named any more; another one comes.
   procedure Replace (Client : in out Task_Number) is
   begin
      P := Complete_Task (K, Client);
      Release (K, Client);
      Client := New_Task;
   end Replace;

   Served : Task_Number := Main_Program;
   Which  : Place;

begin
   Renew_Lasting (K);
   Served := New_Task ((0 => Single_Entry));
   for Client of Clients loop
      Client := New_Task;
   end loop;
   for Number in Place range 0 .. Rendezvous - 1 loop
      Which := Number / Calls mod Clients'Length;
      Served := Serve (Clients (Which));
      if Number mod Calls = Calls - 1 then
         Replace (Clients (Which));
      end if;
   end loop;
   Put_Line (Integer'Image (Rendezvous) & " rendezvous," & Task_Number'Image (Tasks (K) - 2) & " clients");
   Put_Line (" the last was with task" & Served'Image);
end Server;
