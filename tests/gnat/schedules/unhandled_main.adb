--  SPDX-License-Identifier: MIT
--  A main program that ends by an exception, whose text has a line of its own.

procedure Unhandled_Main is
   Too_Early : exception;
   Is_Asked  : Boolean := False;
begin
   declare
      task Asker;
      task Answerer is
         entry Answer;
      end Answerer;

      task body Asker is
      begin
         select
            Answerer.Answer;
            Is_Asked := True;
         else
            null;
         end select;
      end Asker;

      task body Answerer is
      begin
         select
            accept Answer;
         or
            terminate;
         end select;
      end Answerer;
   begin
      null;
   end;
   if not Is_Asked then
      raise Too_Early with "nobody was there";
   end if;
end Unhandled_Main;
