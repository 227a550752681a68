---- MODULE LeaderElection ----
(* Election of a leader on a ring in one direction: E. Chang and R. Roberts, An improved
   algorithm for decentralized extrema-finding in circular configurations of processes,
   CACM 22(5), 1979. Whoever wants to lead sends its number around. A candidate swallows
   smaller numbers, everybody else passes on what comes; whose own number comes back leads.
   Inv: where there is a leader all others have given up, and a number that is under way is
   that of a node which is awake. It holds. *)
EXTENDS Integers
VARIABLES
  \* What each node has come to.
  \* @type: Int -> Str;
  state,
  \* The numbers that are under way to each node.
  \* @type: Int -> Set(Int);
  inbox

N == 4
Nodes == 1..N

\* The number of each node. They stand in no order.
\* @type: () => Seq(Int);
Number == <<3, 1, 4, 2>>

Successor[node \in Nodes] == (node % N) + 1

Init == /\ state = [node \in Nodes |-> "asleep"]
        /\ inbox = [node \in Nodes |-> {}]

Start(node) ==
  /\ state[node] = "asleep"
  /\ state' = [state EXCEPT ![node] = "candidate"]
  /\ inbox' = [inbox EXCEPT ![Successor[node]] = @ \cup {Number[node]}]

Receive(node) == \E number \in inbox[node]:
  LET passes == state[node] \in {"asleep", "passive"} \/ number > Number[node]
      reached == CASE passes -> "passive"
                   [] number = Number[node] -> "leader"
                   [] OTHER -> state[node]
  IN /\ state' = [state EXCEPT ![node] = reached]
     /\ inbox' = [inbox EXCEPT ![node] = @ \ {number},
                               ![Successor[node]] = IF passes THEN @ \cup {number} ELSE @]

Next == \E node \in Nodes: Start(node) \/ Receive(node)

UnderWay == UNION {inbox[node] : node \in Nodes}

Inv == /\ \A node, other \in Nodes:
            state[node] = "leader" /\ other # node => state[other] = "passive"
       /\ \A node \in Nodes: Number[node] \in UnderWay => state[node] # "asleep"
====
