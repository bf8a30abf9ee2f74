--  SPDX-License-Identifier: MIT
--  A buffer whose consumer is aborted, in a rendezvous or before it, or has ended already.

with Ada.Text_IO;

procedure Aborted_Consumer is
   Taken : Natural := 0;
   pragma Volatile (Taken);
begin
   declare
      task Buffer is
         entry Put;
         entry Take;
      end Buffer;
      task Consumer;

      task body Buffer is
         Held : Natural := 0;
      begin
         loop
            select
               accept Put do
                  Held := Held + 1;
               end Put;
            or
               when Held > 0 =>
                  accept Take do
                     Held := Held - 1;
                  end Take;
            or
               terminate;
            end select;
         end loop;
      end Buffer;

      task body Consumer is
      begin
         for Item in 1 .. 2 loop
            Buffer.Take;
            Taken := Item;
         end loop;
      end Consumer;
   begin
      Buffer.Put;
      Buffer.Put;
      abort Consumer;
   end;
   Ada.Text_IO.Put_Line ("taken:" & Natural'Image (Taken));
end Aborted_Consumer;
