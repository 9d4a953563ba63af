MODULE Fibonacci;
(* The 24th Fibonacci number, by a function that calls itself twice. *)
CONST turns = 4;
VAR turn, value: CARDINAL;

PROCEDURE fib(n: CARDINAL): CARDINAL;
BEGIN
  IF n < 2 THEN RETURN n END;
  RETURN fib(n - 1) + fib(n - 2)
END fib;

BEGIN
  FOR turn := 1 TO turns DO value := fib(24) END
END Fibonacci.
