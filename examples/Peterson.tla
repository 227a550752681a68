---- MODULE Peterson ----
(* Mutual exclusion of two processes that share three variables: G. L. Peterson, Myths about
   the mutual exclusion problem, Information Processing Letters 12(3), 1981. A process raises
   its flag, gives the turn to the other, and waits until the other's flag is down or the turn
   is its own. Each line of its program is one step.
   Inv: at most one process is in its critical section. It holds. Inductive is the stronger
   statement by which one proves it: every step keeps it, from whatever state. *)
EXTENDS Integers, FiniteSets
VARIABLES
  \* Where each process stands.
  \* @type: Int -> Str;
  pc,
  \* Which process wants to enter, or is inside.
  \* @type: Int -> Bool;
  flag,
  \* Which process goes first when both want to enter.
  \* @type: Int;
  turn

Processes == {0, 1}
Places == {"idle", "polite", "waiting", "critical"}
Other(p) == 1 - p

Init == /\ pc = [p \in Processes |-> "idle"]
        /\ flag = [p \in Processes |-> FALSE]
        /\ turn = 0

Go(p, from, to) == pc[p] = from /\ pc' = [pc EXCEPT ![p] = to]

RaiseFlag(p) == /\ Go(p, "idle", "polite")
                /\ flag' = [flag EXCEPT ![p] = TRUE]
                /\ UNCHANGED turn

GiveTurn(p) == /\ Go(p, "polite", "waiting")
               /\ turn' = Other(p)
               /\ UNCHANGED flag

Enter(p) == /\ Go(p, "waiting", "critical")
            /\ flag[Other(p)] => turn = p
            /\ UNCHANGED <<flag, turn>>

Leave(p) == /\ Go(p, "critical", "idle")
            /\ flag' = [flag EXCEPT ![p] = FALSE]
            /\ UNCHANGED turn

Next == \E p \in Processes: RaiseFlag(p) \/ GiveTurn(p) \/ Enter(p) \/ Leave(p)

vars == <<pc, flag, turn>>
Spec == Init /\ [][Next]_vars

Inv == Cardinality({p \in Processes : pc[p] = "critical"}) <= 1

TypeOK == /\ pc \in [Processes -> Places]
          /\ flag \in [Processes -> BOOLEAN]
          /\ turn \in Processes

Inductive ==
  /\ TypeOK
  /\ \A p \in Processes: flag[p] <=> pc[p] # "idle"
  /\ \A p \in Processes:
       pc[p] = "critical" /\ pc[Other(p)] \in {"waiting", "critical"} => turn = p

THEOREM Spec => []Inv
====
