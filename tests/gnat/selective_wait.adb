--  SPDX-License-Identifier: MIT
--  Guards, COUNT, families of entries, one of more than 16, the terminate alternative, and PROGRAM_ERROR where nothing
--  is open (9.5, 9.7.1, 9.9).
with Ada.Text_IO; use Ada.Text_IO;

procedure Selective_Wait is
   type Urgency is (Low, High);

   task Server is
      entry Serve (Urgency);
      entry Open;
   end Server;

   task body Server is
      Is_Open : Boolean := False;
   begin
      loop
         select
            accept Open do
               Is_Open := True;
            end Open;
            while Serve (Low)'Count + Serve (High)'Count < 2 loop
               delay 0.001;
            end loop;
         or
            when Is_Open and Serve (High)'Count = 0 =>
               accept Serve (Low) do
                  Put_Line ("served: low");
               end Serve;
         or
            when Is_Open =>
               accept Serve (High) do
                  Put_Line ("served: high," & Integer'Image (Serve (Low)'Count) & " low in the queue");
               end Serve;
         or
            terminate;
         end select;
      end loop;
   end Server;

   task type Client (Wish : Urgency);
   task body Client is
   begin
      Server.Serve (Wish);
   end Client;

   task Closed is
      entry Never;
   end Closed;
   task body Closed is
   begin
      select
         when Server'Terminated =>
            accept Never;
      end select;
      Put_Line ("never printed");
   exception
      when Program_Error =>
         Put_Line ("nothing was open");
   end Closed;

   task Wide is
      entry Take (1 .. 20) (Value : Integer);
   end Wide;
   task body Wide is
   begin
      while Take (3)'Count = 0 loop
         delay 0.001;
      end loop;
      accept Take (20) (Value : Integer);
      while Take (3)'Count + Take (4)'Count < 2 loop
         delay 0.001;
      end loop;
      for Place in reverse 3 .. 4 loop
         accept Take (Place) (Value : Integer) do
            Put_Line ("entry" & Integer'Image (Place) & " is called with" & Integer'Image (Value));
         end Take;
      end loop;
   end Wide;

   task type Taker (Place : Positive);
   task body Taker is
   begin
      Wide.Take (Place) (Place);
   end Taker;
begin
   while not Closed'Terminated loop
      delay 0.001;
   end loop;
   declare
      First  : Client (Low);
      Second : Client (High);
   begin
      Server.Open;
   end;
   Put_Line ("both clients are served");
   declare
      Third : Taker (3);
   begin
      Wide.Take (20) (20);
      declare
         Fourth : Taker (4);
      begin
         null;
      end;
   end;
end Selective_Wait;
