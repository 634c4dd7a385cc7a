package Queues is
   type Job;
   type Queue is access Job;
   type Job is record
      Cost : Natural;
      Rest : Queue;
   end record;

   --  Puts a job in front of the others.
   procedure Push (Q : in out Queue; Cost : Natural);

   --  Frees the first job.
   procedure Drop (Q : in out Queue);

   --  The cost of all jobs.
   function Total (Q : Queue) return Natural;
end Queues;
