--  SPDX-License-Identifier: MIT
--  A task that ends the whole program, so that another one may not come to its statement.

with Ada.Text_IO;
with GNAT.OS_Lib;

procedure Early_Exit is
   task Leaver;
   task Writer;

   task body Leaver is
   begin
      GNAT.OS_Lib.OS_Exit (7);
   end Leaver;

   task body Writer is
   begin
      Ada.Text_IO.Put_Line ("written");
      Ada.Text_IO.Flush;
   end Writer;
begin
   null;
end Early_Exit;
