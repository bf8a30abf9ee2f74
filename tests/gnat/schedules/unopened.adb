--  SPDX-License-Identifier: MIT
--  A task that waits for ever at an entry of a protected object.

procedure Unopened is
   protected Gate is
      entry Pass;
   private
      Is_Open : Boolean := False;
   end Gate;

   protected body Gate is
      entry Pass when Is_Open is
      begin
         null;
      end Pass;
   end Gate;

   task Walker;

   task body Walker is
   begin
      Gate.Pass;
   end Walker;
begin
   null;
end Unopened;
