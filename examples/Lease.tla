---- MODULE Lease ----
(* Leases: C. Gray and D. Cheriton, Leases: an efficient fault-tolerant mechanism for
   distributed file cache consistency, SOSP 1989. A server lends a file to one client for a
   term. Clocks run at one rate, and show different times: a client counts the term from when
   it asked, the server from when it granted, which is later. So nobody compares two clocks, and
   a lost message harms nothing. Clients may renew their lease while it runs.
   Inv: at most one client holds the lease, and only the one the server means. It holds. *)
EXTENDS Integers
VARIABLES
  \* The time that each machine's clock shows.
  \* @type: Str -> Int;
  clock,
  \* To whom the lease was granted last, and until when by the server's clock.
  \* @type: {client: Str, until: Int};
  granted,
  \* Until when each client holds the lease, by the client's own clock.
  \* @type: Str -> Int;
  until,
  \* Requests and answers, with the time at which the client asked, by its own clock.
  \* @type: Set({client: Str, sent: Int});
  requests,
  \* @type: Set({client: Str, sent: Int});
  answers

Clients == {"c1", "c2"}
Machines == Clients \cup {"server"}
Term == 2

Holds(client) == clock[client] < until[client]

Init == /\ clock \in [Machines -> 0..1]
        /\ granted = [client |-> "nobody", until |-> 0]
        /\ until = [client \in Clients |-> 0]
        /\ requests = {} /\ answers = {}

Tick == /\ clock' = [machine \in Machines |-> clock[machine] + 1]
        /\ UNCHANGED <<granted, until, requests, answers>>

\* A client asks where it holds no lease, or one that has run for half its term.
Ask(client) ==
  /\ until[client] - clock[client] <= Term \div 2
  /\ requests' = requests \cup {[client |-> client, sent |-> clock[client]]}
  /\ UNCHANGED <<clock, granted, until, answers>>

Grant == \E request \in requests:
  LET now == clock["server"] IN
  /\ granted.client = request.client \/ granted.until <= now
  /\ granted' = [granted EXCEPT !.client = request.client, !.until = now + Term]
  /\ requests' = requests \ {request}
  /\ answers' = answers \cup {request}
  /\ UNCHANGED <<clock, until>>

Take == \E answer \in answers:
  LET end == answer.sent + Term IN
  /\ until' = [until EXCEPT ![answer.client] = IF end > @ THEN end ELSE @]
  /\ answers' = answers \ {answer}
  /\ UNCHANGED <<clock, granted, requests>>

Next == Tick \/ Grant \/ Take \/ \E client \in Clients: Ask(client)

Inv == /\ \A client, other \in Clients: Holds(client) /\ Holds(other) => client = other
       /\ \A client \in Clients: Holds(client) => client = granted.client
====
