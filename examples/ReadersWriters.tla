---- MODULE ReadersWriters ----
(* Readers and writers of one file: P. J. Courtois, F. Heymans and D. L. Parnas, Concurrent
   control with readers and writers, CACM 14(10), 1971. Here all wait in one queue and are let
   in by its order, so that nobody starves, as in the module ReadersWriters of the TLA+ examples.
   Inv: while a writer is inside nobody else is, whoever is inside does not wait, and the queue
   has requests alone. It holds. *)
EXTENDS Integers, Sequences, FiniteSets
VARIABLES
  \* Who reads.
  \* @type: Set(Int);
  readers,
  \* Who writes.
  \* @type: Set(Int);
  writers,
  \* Who waits for what, in the order of arrival.
  \* @type: Seq({kind: Str, actor: Int});
  queue

Actors == 1..3
Requests == [kind: {"read", "write"}, actor: Actors]

Busy == readers \cup writers
Waiting == {queue[i].actor : i \in DOMAIN queue}

Init == readers = {} /\ writers = {} /\ queue = <<>>

Ask(actor, kind) ==
  /\ actor \notin Busy \cup Waiting
  /\ queue' = Append(queue, [kind |-> kind, actor |-> actor])
  /\ UNCHANGED <<readers, writers>>

\* The first of the queue goes in, as soon as it may.
Admit ==
  /\ queue # <<>> /\ writers = {}
  /\ LET first == Head(queue) IN
     CASE first.kind = "read" -> /\ readers' = readers \cup {first.actor}
                                 /\ UNCHANGED writers
       [] first.kind = "write" -> /\ readers = {}
                                  /\ writers' = {first.actor}
                                  /\ UNCHANGED readers
  /\ queue' = Tail(queue)

Stop(actor) ==
  /\ readers' = readers \ {actor}
  /\ writers' = writers \ {actor}
  /\ UNCHANGED queue

Next == \/ \E actor \in Actors, kind \in {"read", "write"}: Ask(actor, kind)
        \/ Admit
        \/ \E actor \in Busy: Stop(actor)

Inv == /\ queue \in Seq(Requests)
       /\ Busy \cap Waiting = {}
       /\ writers = {} \/ (readers = {} /\ Cardinality(writers) = 1)
====
