---- MODULE Steps ----
(* A counter that goes up by an instance of the module Inc, whose constant is 2 there.
   Inv: the counter is not 4. It breaks at level 2. *)
EXTENDS Integers
VARIABLE
  \* @type: Int;
  counter
Two == INSTANCE Inc WITH c <- 2
Init == counter = 0
Next == counter' = Two!Add(counter)
Inv == counter # 4
====
