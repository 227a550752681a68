---- MODULE Termination ----
(* Who finds out that a computation on a ring of machines has ended: E. W. Dijkstra, W. H. J.
   Feijen and A. J. M. van Gasteren, Derivation of a termination detection algorithm for
   distributed computations, Information Processing Letters 16(5), 1983 (EWD840). A token runs
   from machine N - 1 down to 0. A machine that sends work upwards turns black, and blackens the
   token that it passes on.
   Inv: where machine 0 sees the end no machine is active, and Dijkstra's invariant. It holds. *)
EXTENDS Integers
VARIABLES
  \* Which machines work.
  \* @type: Int -> Bool;
  active,
  \* @type: Int -> Str;
  color,
  \* Where the token is, and its color.
  \* @type: <<Int, Str>>;
  token

N == 4
Machines == 0..(N - 1)
Colors == {"white", "black"}

Init == /\ active \in [Machines -> BOOLEAN]
        /\ color \in [Machines -> Colors]
        /\ token \in Machines \X {"black"}

\* Machine 0 begins a new round where the last one did not show the end.
Begin ==
  /\ token[1] = 0
  /\ token[2] = "black" \/ color[0] = "black"
  /\ token' = <<N - 1, "white">>
  /\ color' = [color EXCEPT ![0] = "white"]
  /\ UNCHANGED active

Pass(m) ==
  /\ token[1] = m
  /\ ~active[m] \/ color[m] = "black" \/ token[2] = "black"
  /\ token' = <<m - 1, IF color[m] = "black" THEN "black" ELSE token[2]>>
  /\ color' = [color EXCEPT ![m] = "white"]
  /\ UNCHANGED active

Send(m, to) ==
  /\ active[m]
  /\ active' = [active EXCEPT ![to] = TRUE]
  /\ color' = [color EXCEPT ![m] = IF to > m THEN "black" ELSE @]
  /\ UNCHANGED token

Stop(m) ==
  /\ active[m]
  /\ active' = [active EXCEPT ![m] = FALSE]
  /\ UNCHANGED <<color, token>>

Next == \/ Begin
        \/ \E m \in Machines \ {0}: Pass(m)
        \/ \E m \in Machines: Stop(m) \/ \E to \in Machines \ {m}: Send(m, to)

IsEndSeen == token = <<0, "white">> /\ color[0] = "white" /\ ~active[0]

Dijkstra == \/ \A m \in Machines: m > token[1] => ~active[m]
            \/ \E m \in 0..token[1]: color[m] = "black"
            \/ token[2] = "black"

Inv == (IsEndSeen => \A m \in Machines: ~active[m]) /\ Dijkstra
====
