---- MODULE Ring ----
(* One token on a ring of N places, which is always at one place. Inv: it is never at two. It
   holds. *)
EXTENDS Integers
VARIABLE
  \* @type: Int -> Bool;
  token
N == 4
Init == token = [i \in 1..N |-> i = 1]
Next == \E i \in 1..N: token[i] /\ token' = [token EXCEPT
  ![i] = FALSE, ![IF i = N THEN 1 ELSE i + 1] = TRUE]
Inv == \A i \in 1..N: \A j \in 1..N: token[i] /\ token[j] => i = j
====
