--  SPDX-License-Identifier: MIT
--  A million rendezvous, and 6,000 tasks that are made and end: the kernel lives on, and the program's memory stays
--  below 20 MB.
with Ada.Text_IO; use Ada.Text_IO;

procedure Long_Life is
   Calls : constant := 1_000_000;
   Tasks : constant := 6_000;

   task Server is
      entry Next (Value : in out Integer);
   end Server;

   task body Server is
   begin
      loop
         select
            accept Next (Value : in out Integer) do
               Value := Value + 1;
            end Next;
         or
            terminate;
         end select;
      end loop;
   end Server;

   procedure Make_And_End is
      task Short;
      task body Short is
      begin
         null;
      end Short;
   begin
      null;
   end Make_And_End;

   --  The largest resident memory so far, in kilobytes
   function Memory return Integer is
      Status : File_Type;
   begin
      Open (Status, In_File, "/proc/self/status");
      loop
         declare
            Line : constant String := Get_Line (Status);
         begin
            if Line'Length > 8 and then Line (Line'First .. Line'First + 5) = "VmHWM:" then
               Close (Status);
               return Integer'Value (Line (Line'First + 7 .. Line'Last - 3));
            end if;
         end;
      end loop;
   end Memory;

   Value : Integer := 0;
begin
   for Call in 1 .. Calls loop
      Server.Next (Value);
   end loop;
   Put_Line ("calls:" & Integer'Image (Value));
   for Made in 1 .. Tasks loop
      Make_And_End;
   end loop;
   Put_Line ("below 20 MB: " & Boolean'Image (Memory < 20_000));
end Long_Life;
