--  SPDX-License-Identifier: MIT
--  Whoever leaves a master waits for its dependents: a block, a task's body that is one, and a function with tasks that
--  the declarations of a task's body call. The task of an allocator depends on the master of its access type (9.4).
with Ada.Text_IO; use Ada.Text_IO;

procedure Master_Waits is
   function Counted return Integer is
      Count : Integer := 0;
   begin
      declare
         task Counter;
         task body Counter is
         begin
            delay 0.02;
            Count := Count + 1;
         end Counter;
      begin
         Count := Count + 1;
      end;
      return Count;
   end Counted;

   Is_At_End : Boolean := False with Volatile;

   task type Parent;
   task body Parent is
      Value : constant Integer := Counted;
      Has_Told : Boolean := False with Volatile;
      task Child;
      task body Child is
         Grown : constant Integer := Counted;
      begin
         while not Has_Told loop
            delay 0.001;
         end loop;
         Put_Line ("the child has counted" & Integer'Image (Grown));
      end Child;
   begin
      while not Is_At_End loop
         delay 0.001;
      end loop;
      Put_Line ("the parent has counted" & Integer'Image (Value));
      Has_Told := True;
   end Parent;

   type Parent_Access is access Parent;
   P : Parent_Access;

   task type Lasting is
      entry Go;
   end Lasting;
   task body Lasting is
   begin
      accept Go;
   end Lasting;

   procedure Allocate_Within is
      type Lasting_Access is access Lasting;
      L : Lasting_Access;
   begin
      declare
         Short : Lasting;
      begin
         L := new Lasting;
         Short.Go;
      end;
      Put_Line ("the inner block is left");
      L.Go;
      declare
         task Maker;
         task body Maker is
         begin
            L := new Lasting;
         end Maker;
      begin
         while not Maker'Terminated loop
            delay 0.001;
         end loop;
      end;
      Put_Line ("the maker is terminated before what it made");
      L.Go;
   end Allocate_Within;
begin
   declare
      Two : Parent;
      pragma Unreferenced (Two);
   begin
      Put_Line ("the block has come to its end");
      Is_At_End := True;
   end;
   Put_Line ("the block is left");
   P := new Parent;
   while not P'Terminated loop
      delay 0.001;
   end loop;
   Put_Line ("the parent is terminated");
   Allocate_Within;
   Put_Line ("and so is what the allocator made");
end Master_Waits;
