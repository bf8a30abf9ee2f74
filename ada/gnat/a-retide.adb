--  SPDX-License-Identifier: MIT
--  delay until a moment of Ada.Real_Time: by the soft link for delays, which the kernel's unit has set.

with System.OS_Primitives;
with System.Soft_Links;
pragma Warnings (Off);
--  Only its elaboration is wanted
with System.Tasking.Kernel;
pragma Warnings (On);
pragma Elaborate_All (System.Tasking.Kernel);

package body Ada.Real_Time.Delays is

   procedure Delay_Until (T : Time) is
   begin
      System.Soft_Links.Timed_Delay.all (To_Duration (T), System.OS_Primitives.Absolute_RT);
   end Delay_Until;

   function To_Duration (T : Time) return Duration is (Ada.Real_Time.To_Duration (Time_Span (T)));

end Ada.Real_Time.Delays;
