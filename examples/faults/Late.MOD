MODULE Late;
VAR n: CARDINAL;
BEGIN
  n := 1;
  VAR m: CARDINAL;
  m := n
END Late.
