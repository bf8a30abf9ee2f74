--  SPDX-License-Identifier: MIT
--  Prints how each record of the Ada package lies in memory, as layout.c does of the structs of the header; with the
--  word `names`, each name and number that the package and the header share, as the header has them.

with Ada.Command_Line; use Ada.Command_Line;
with Ada.Text_IO;      use Ada.Text_IO;
with Adatask;          use Adatask;

procedure Ada_Layout is

   type Numbers is array (Positive range <>) of Natural;

   --  A record's size in bits, and where its components begin, in bytes.
   procedure Print (Name : String; Size : Natural; Starts : Numbers) is
   begin
      Put (Name & Natural'Image (Size / 8) & ":");
      for Start of Starts loop
         Put (Start'Image);
      end loop;
      New_Line;
   end Print;

   E  : Event;
   L  : List_Lengths;
   O  : Outcome;
   R  : Reason;
   B  : Board;
   C  : Choice;
   D  : Delay_Alternative;
   Du : Due;
   F  : Family;

   procedure Print_Records is
   begin
      Print ("event", E'Size,
             (E.Kind'Position, E.Form'Position, E.By'Position, E.Callee'Position,
              E.Item'Position + E.Item.Family'Position, E.Item'Position + E.Item.Index'Position,
              E.Under_Kind'Position, E.Master_Kind'Position, E.Under'Position, E.Master'Position, E.Call'Position,
              E.At_Position'Position, E.Number'Position, E.Is_Timed'Position, E.Moment'Position, E.Length'Position));
      Print ("family", F'Size, (F.Low'Position, F.High'Position));
      Print ("choice", C'Size,
             (C.Item'Position + C.Item.Family'Position, C.Item'Position + C.Item.Index'Position, C.Is_Open'Position));
      Print ("pause", D'Size, (D.Length'Position, D.Is_Open'Position));
      Print ("due", Du'Size, (Du.Moment'Position, Du.Is_Open'Position));
      Print ("lengths", L'Size, (L.Tasks'Position, L.Families'Position, L.Choices'Position, L.Delays'Position));
      Print ("outcome", O'Size, (O.Kind'Position, O.Number'Position, O.Call'Position, O.Caller'Position));
      Print ("reason", R'Size, (R.Kind'Position, R.At_Position'Position));
      Print ("board", B'Size,
             (B.Events'Position, B.Tasks'Position, B.Slots'Position, B.Callable'Position, B.Terminated'Position,
              B.Counts'Position));
   end Print_Records;

   --  Prints the names of a type as the header has them.
   generic
      type Kind is (<>);
   procedure Print_Kinds;

   procedure Print_Kinds is
   begin
      for Item in Kind loop
         Put_Line (Item'Image & Integer'Image (Kind'Enum_Rep (Item)));
      end loop;
   end Print_Kinds;

   procedure Print_Answers is new Print_Kinds (Answer);
   procedure Print_Masters is new Print_Kinds (Master_Kind);
   procedure Print_Calls is new Print_Kinds (Call_Kind);
   procedure Print_Last_Parts is new Print_Kinds (Last_Part);
   procedure Print_Ways is new Print_Kinds (Way);
   procedure Print_Events is new Print_Kinds (Event_Kind);
   procedure Print_Outcomes is new Print_Kinds (Outcome_Kind);
   procedure Print_Reasons is new Print_Kinds (Reason_Kind);

begin
   if Argument_Count = 0 then
      Print_Records;
   else
      Print_Answers;
      Print_Masters;
      Print_Calls;
      Print_Last_Parts;
      Print_Ways;
      Print_Events;
      Print_Outcomes;
      Print_Reasons;
   end if;
end Ada_Layout;
