MODULE Ackermann;
(* Ackermann's function of 2 and 9, whose argument may be a call of itself. *)
CONST turns = 200;
VAR turn, i, value: CARDINAL;

PROCEDURE ack(m, n: CARDINAL): CARDINAL;
BEGIN
  IF m = 0 THEN RETURN n + 1 END;
  IF n = 0 THEN RETURN ack(m - 1, 1) END;
  RETURN ack(m - 1, ack(m, n - 1))
END ack;

BEGIN
  FOR turn := 1 TO turns DO
    FOR i := 1 TO 10 DO value := ack(2, 9) END
  END
END Ackermann.
