---- MODULE Hall ----
(* A hall with two lamps. Whoever passes lights the one at the door, and then
   the last one out switches both off: the hall is dark after two steps. *)
VARIABLES
  \* @type: Bool;
  door,
  \* @type: Bool;
  stairs

Door == INSTANCE Lamp WITH on <- door
Stairs == INSTANCE Lamp WITH on <- stairs

Init == Door!Is(FALSE) /\ Stairs!Is(TRUE)
Next == \/ Door!Switch(FALSE, TRUE) /\ Stairs!Switch(TRUE, TRUE)
        \/ Door!Switch(TRUE, FALSE) /\ Stairs!Is(FALSE)'

\* One is lit. It does not hold.
Inv == Stairs!Is(TRUE)
====
