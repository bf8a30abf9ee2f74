--  SPDX-License-Identifier: MIT
--  A task keeps a value that two others read, and then write: an update may be lost.

with Ada.Text_IO;

procedure Lost_Update is
   task Store is
      entry Read (Value : out Integer);
      entry Write (Value : Integer);
   end Store;

   task body Store is
      Kept : Integer := 0;
   begin
      loop
         select
            accept Read (Value : out Integer) do
               Value := Kept;
            end Read;
         or
            accept Write (Value : Integer) do
               Kept := Value;
            end Write;
         or
            terminate;
         end select;
      end loop;
   end Store;

   Value : Integer;
begin
   declare
      task One;
      task Other;

      task body One is
         Seen : Integer;
      begin
         Store.Read (Seen);
         Store.Write (Seen + 1);
      end One;

      task body Other is
         Seen : Integer;
      begin
         Store.Read (Seen);
         Store.Write (Seen + 1);
      end Other;
   begin
      null;
   end;
   Store.Read (Value);
   Ada.Text_IO.Put_Line ("updates:" & Integer'Image (Value));
end Lost_Update;
