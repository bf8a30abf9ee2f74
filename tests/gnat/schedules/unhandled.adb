--  SPDX-License-Identifier: MIT
--  A task that ends by an exception if another one comes first.

procedure Unhandled is
   task Counter is
      entry Take (Number : out Positive);
   end Counter;
   task Early;
   task Late;

   task body Counter is
   begin
      for Next in 1 .. 2 loop
         accept Take (Number : out Positive) do
            Number := Next;
         end Take;
      end loop;
   end Counter;

   task body Early is
      Number : Positive;
   begin
      Counter.Take (Number);
   end Early;

   task body Late is
      Number : Positive;
   begin
      Counter.Take (Number);
      if Number = 1 then
         raise Constraint_Error;
      end if;
   end Late;
begin
   null;
end Unhandled;
