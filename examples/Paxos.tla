---- MODULE Paxos ----
(* Consensus on one value: L. Lamport, The part-time parliament, ACM TOCS 16(2), 1998, in the
   form of his module Paxos. The leader of a ballot asks (1a) for promises to ignore earlier
   ballots (1b), proposes (2a) the value that was voted for in the latest ballot it hears of, or
   any value, and the acceptors vote for it (2b). Messages stay, so each may come late or twice.
   Inv: no two values are chosen, and all messages and promises are of their kinds. It holds. *)
EXTENDS Integers, FiniteSets
\* @typeAlias: message = {kind: Str, ballot: Int, acceptor: Str, voted: Int, value: Str};
VARIABLES
  \* The latest ballot that an acceptor takes part in.
  \* @type: Str -> Int;
  promised,
  \* The ballot of its latest vote, and the value of this vote.
  \* @type: Str -> {ballot: Int, value: Str};
  vote,
  \* All messages that were sent.
  \* @type: Set($message);
  messages

Acceptors == {"a1", "a2", "a3"}
Quorums == {Q \in SUBSET Acceptors : 2 * Cardinality(Q) > Cardinality(Acceptors)}
Ballots == 1..2
Values == {"v1", "v2"}
NoVote == [ballot |-> 0, value |-> "none"]

Message(kind, ballot, acceptor, last) ==
  [kind |-> kind, ballot |-> ballot, acceptor |-> acceptor,
   voted |-> last.ballot, value |-> last.value]
Send(message) == messages' = messages \cup {message}
Sent(kind, ballot) == {m \in messages : m.kind = kind /\ m.ballot = ballot}

Init == /\ promised = [a \in Acceptors |-> 0]
        /\ vote = [a \in Acceptors |-> NoVote]
        /\ messages = {}

Ask(ballot) == Send(Message("1a", ballot, "none", NoVote)) /\ UNCHANGED <<promised, vote>>

Promise(a) == \E m \in messages:
  /\ m.kind = "1a" /\ m.ballot > promised[a]
  /\ promised' = [promised EXCEPT ![a] = m.ballot]
  /\ Send(Message("1b", m.ballot, a, vote[a]))
  /\ UNCHANGED vote

Propose(ballot, value) ==
  /\ Sent("2a", ballot) = {}
  /\ \E Q \in Quorums:
       LET promises == {m \in Sent("1b", ballot) : m.acceptor \in Q}
           votes == {m \in promises : m.voted > 0}
       IN /\ \A a \in Q: \E m \in promises: m.acceptor = a
          /\ \/ votes = {}
             \/ \E m \in votes: m.value = value /\ \A other \in votes: other.voted <= m.voted
  /\ Send(Message("2a", ballot, "none", [ballot |-> ballot, value |-> value]))
  /\ UNCHANGED <<promised, vote>>

Vote(a) == \E m \in messages:
  /\ m.kind = "2a" /\ m.ballot >= promised[a]
  /\ promised' = [promised EXCEPT ![a] = m.ballot]
  /\ vote' = [vote EXCEPT ![a].ballot = m.ballot, ![a].value = m.value]
  /\ Send(Message("2b", m.ballot, a, vote'[a]))

Next == \/ \E ballot \in Ballots: Ask(ballot) \/ \E value \in Values: Propose(ballot, value)
        \/ \E a \in Acceptors: Promise(a) \/ Vote(a)

Chosen == {value \in Values : \E ballot \in Ballots, Q \in Quorums: \A a \in Q:
             Message("2b", ballot, a, [ballot |-> ballot, value |-> value]) \in messages}

Inv == /\ Cardinality(Chosen) <= 1
       /\ promised \in [Acceptors -> Ballots \cup {0}]
       /\ messages \subseteq [kind: {"1a", "1b", "2a", "2b"}, ballot: Ballots,
            acceptor: Acceptors \cup {"none"}, voted: 0..2, value: Values \cup {"none"}]
====
