MODULE Then;
VAR n: CARDINAL;
BEGIN
  n := 3;
  IF n = 3
    n := 4
  END
END Then.
