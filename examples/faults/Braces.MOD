MODULE Braces;
VAR n: CARDINAL;
BEGIN
  { set n }
  n := 1
END Braces.
