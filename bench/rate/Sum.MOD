MODULE Sum;
(* Two FORs, and one addition in the inner one. *)
CONST turns = 60;
VAR outer, inner, sum: CARDINAL;
BEGIN
  FOR outer := 1 TO turns DO
    sum := 0;
    FOR inner := 1 TO 20000 DO sum := sum + 3 END
  END
END Sum.
