---- MODULE ThreePhaseCommit ----
(* Three-phase commit: D. Skeen, Nonblocking commit protocols, SIGMOD 1981. A coordinator asks
   for votes, announces that it is going to commit, and commits once all know. So where it
   crashes the participants need not wait: who was told goes on to commit, who was not aborts.
   Inv: no participant aborts where another commits. It breaks at level 8, as messages may be
   late: the coordinator crashes when one participant has read the announcement; this one
   commits, and another, whose message is still under way, aborts. Skeen's network is never
   late: with Late == FALSE it holds. *)
VARIABLES
  \* What each participant has come to.
  \* @type: Str -> Str;
  state,
  \* What the coordinator has come to.
  \* @type: Str;
  coordinator,
  \* All messages that were sent. Those of the coordinator go to everybody.
  \* @type: Set({kind: Str, from: Str});
  messages

Participants == {"p1", "p2", "p3"}
Late == TRUE

Message(kind, from) == [kind |-> kind, from |-> from]
IsSent(kind) == Message(kind, "coordinator") \in messages
AllSent(kind) == \A p \in Participants: Message(kind, p) \in messages

Init == /\ state = [p \in Participants |-> "working"]
        /\ coordinator = "asking"
        /\ messages = {}

\* The coordinator: it goes on, and tells everybody, or it crashes.
Tell(from, kind) == /\ coordinator = from
                    /\ coordinator' = kind
                    /\ messages' = messages \cup {Message(kind, "coordinator")}
                    /\ UNCHANGED state
Announce == AllSent("yes") /\ Tell("asking", "prepare")
Commit == AllSent("prepared") /\ Tell("prepare", "commit")
Abort == Tell("asking", "abort")
Crash == /\ coordinator' = "crashed"
         /\ UNCHANGED <<state, messages>>

\* A participant: it goes on, with a message of its own or none.
Move(p, from, to) == state[p] = from /\ state' = [state EXCEPT ![p] = to]
Answer(p, from, to, kind) == /\ Move(p, from, to)
                             /\ messages' = messages \cup {Message(kind, p)}
                             /\ UNCHANGED coordinator
Silent(p, from, to) == Move(p, from, to) /\ UNCHANGED <<coordinator, messages>>

TimeOut(p) ==
  /\ coordinator = "crashed"
  /\ \/ Silent(p, "working", "aborted")
     \/ (Late \/ ~IsSent("prepare")) /\ Silent(p, "ready", "aborted")
     \/ Silent(p, "prepared", "committed")

Step(p) ==
  \/ Answer(p, "working", "ready", "yes")
  \/ Silent(p, "working", "aborted")
  \/ IsSent("prepare") /\ Answer(p, "ready", "prepared", "prepared")
  \/ IsSent("abort") /\ Silent(p, "ready", "aborted")
  \/ IsSent("commit") /\ Silent(p, "prepared", "committed")
  \/ TimeOut(p)

Next == Announce \/ Commit \/ Abort \/ Crash \/ \E p \in Participants: Step(p)

Inv == \A p, q \in Participants: ~(state[p] = "aborted" /\ state[q] = "committed")
====
