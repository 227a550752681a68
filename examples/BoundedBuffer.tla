---- MODULE BoundedBuffer ----
(* Producers and consumers share a buffer as threads do in Java: one lock, and one set of
   waiting threads for both sides, of which notify wakes any one. Known from M. Charpentier, An
   example of debugging Java with a model checker, and from M. Kuppe's tutorial BlockingQueue.
   Inv: the buffer keeps its bound, and not all threads wait. It breaks at level 7: a consumer
   that takes the item wakes the other consumer in place of the producer, and soon all wait.
   Where Size is at least half the number of threads, as with Size == 2, it holds. *)
EXTENDS Integers, Sequences
VARIABLES
  \* The items, of which each is its producer's name.
  \* @type: Seq(Str);
  buffer,
  \* The threads that wait to be woken.
  \* @type: Set(Str);
  waiting

Producers == {"p1"}
Consumers == {"c1", "c2"}
Threads == Producers \cup Consumers
Size == 1

Init == buffer = <<>> /\ waiting = {}

Notify ==
  IF waiting = {}
  THEN UNCHANGED waiting
  ELSE \E thread \in waiting: waiting' = waiting \ {thread}

Wait(thread) == waiting' = waiting \cup {thread} /\ UNCHANGED buffer

Put(producer) ==
  /\ producer \notin waiting
  /\ IF Len(buffer) < Size
     THEN buffer' = Append(buffer, producer) /\ Notify
     ELSE Wait(producer)

Get(consumer) ==
  /\ consumer \notin waiting
  /\ IF buffer # <<>>
     THEN buffer' = Tail(buffer) /\ Notify
     ELSE Wait(consumer)

Next == \/ \E producer \in Producers: Put(producer)
        \/ \E consumer \in Consumers: Get(consumer)

Inv == Len(buffer) <= Size /\ waiting # Threads
====
