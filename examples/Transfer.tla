---- MODULE Transfer ----
(* Two wires take money from one account to another: the first example of H. Wayne, Practical
   TLA+, 2018. A wire looks whether there is enough, withdraws, and deposits, each in a step of
   its own.
   Inv: no account is overdrawn, and the sum of the accounts and of the money that is under way
   is what it was at first (the accounts alone are short between the two steps, so their sum is
   no invariant). It breaks at level 4: both wires look, and then both withdraw. With
   --next=SafeNext, where a wire looks and withdraws in one step, it holds. *)
EXTENDS Integers, TLC, Apalache
VARIABLES
  \* @type: Str -> Int;
  balance,
  \* What each wire takes.
  \* @type: Int -> Int;
  amount,
  \* What each wire does next.
  \* @type: Int -> Str;
  pc

Wires == <<1, 2>>
Accounts == <<"alice", "bob">>

Init == /\ balance = "alice" :> 5 @@ "bob" :> 5
        /\ amount \in [1..2 -> 1..5]
        /\ pc = [wire \in 1..2 |-> "check"]

Move(account, difference) == balance' := [balance EXCEPT ![account] = @ + difference]
Go(wire, from, to) == pc[wire] = from /\ pc' := [pc EXCEPT ![wire] = to]
IsCovered(wire) == amount[wire] <= balance["alice"]

Check(wire) ==
  /\ Go(wire, "check", IF IsCovered(wire) THEN "withdraw" ELSE "done")
  /\ UNCHANGED <<balance, amount>>

Withdraw(wire) ==
  /\ Go(wire, "withdraw", "deposit")
  /\ Move("alice", -amount[wire])
  /\ UNCHANGED amount

CheckAndWithdraw(wire) ==
  /\ IsCovered(wire)
  /\ Go(wire, "check", "deposit")
  /\ Move("alice", -amount[wire])
  /\ UNCHANGED amount

Deposit(wire) ==
  /\ Go(wire, "deposit", "done")
  /\ Move("bob", amount[wire])
  /\ UNCHANGED amount

Next == \E wire \in 1..2: Check(wire) \/ Withdraw(wire) \/ Deposit(wire)
SafeNext == \E wire \in 1..2: CheckAndWithdraw(wire) \/ Deposit(wire)

UnderWay(wire) == IF pc[wire] = "deposit" THEN amount[wire] ELSE 0
Total == ApaFoldSeqLeft(LAMBDA sum, account: sum + balance[account], 0, Accounts)
       + ApaFoldSeqLeft(LAMBDA sum, wire: sum + UnderWay(wire), 0, Wires)

Inv == Total = 10 /\ \A account \in DOMAIN balance: balance[account] >= 0
====
