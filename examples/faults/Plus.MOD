MODULE Plus;
VAR n: CARDINAL;
BEGIN
  n := 1;
  n++
END Plus.
