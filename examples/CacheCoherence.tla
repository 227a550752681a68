---- MODULE CacheCoherence ----
(* Caches of one word of memory on a bus, by the protocol MSI: a line is Modified, Shared or
   Invalid (J. Hennessy and D. Patterson, Computer architecture: a quantitative approach, the
   chapter on multiprocessors). A transaction on the bus is one step, and all caches hear it.
   Inv: a line that may be written is the only one that is valid, every valid line has the value
   that was written last, and where no line is modified memory has it too. It holds. *)
VARIABLES
  \* The line in each cache.
  \* @type: CACHE -> {state: Str, value: Int};
  line,
  \* @type: Int;
  memory,
  \* The value that was written last. No cache reads it.
  \* @type: Int;
  latest

Caches == {"a_OF_CACHE", "b_OF_CACHE", "c_OF_CACHE"}
Values == {0, 1, 2}
Line(state, value) == [state |-> state, value |-> value]
Modified == {cache \in Caches : line[cache].state = "Modified"}

Init == /\ memory \in Values
        /\ latest = memory
        /\ line = [cache \in Caches |-> Line("Invalid", 0)]

\* A miss is served by memory, or by the cache whose line is modified, which memory then has too.
Read(cache) ==
  /\ line[cache].state = "Invalid"
  /\ IF Modified = {}
     THEN /\ line' = [line EXCEPT ![cache] = Line("Shared", memory)]
          /\ UNCHANGED memory
     ELSE \E owner \in Modified:
          /\ memory' = line[owner].value
          /\ line' = [line EXCEPT ![owner].state = "Shared",
                                  ![cache] = Line("Shared", line[owner].value)]
  /\ UNCHANGED latest

Write(cache, value) ==
  /\ line' = [other \in Caches |->
       IF other = cache THEN Line("Modified", value)
                        ELSE [line[other] EXCEPT !.state = "Invalid"]]
  /\ latest' = value
  /\ UNCHANGED memory

Evict(cache) ==
  /\ line[cache].state # "Invalid"
  /\ memory' = IF cache \in Modified THEN line[cache].value ELSE memory
  /\ line' = [line EXCEPT ![cache].state = "Invalid"]
  /\ UNCHANGED latest

Next == \E cache \in Caches:
  \/ Read(cache)
  \/ \E value \in Values: Write(cache, value)
  \/ Evict(cache)

Inv == /\ \A owner \in Modified: \A cache \in Caches \ {owner}: line[cache].state = "Invalid"
       /\ \A cache \in Caches: line[cache].state # "Invalid" => line[cache].value = latest
       /\ Modified = {} => memory = latest
====
