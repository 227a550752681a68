---- MODULE Lamp ----
(* A lamp, which is lit or not. *)
VARIABLE
  \* @type: Bool;
  on

Is(b) == on = b
Switch(a, b) == Is(a) /\ Is(b)'
====
