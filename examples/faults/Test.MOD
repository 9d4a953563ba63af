MODULE Test;
VAR n: CARDINAL;
BEGIN
  n := 3;
  IF n := 3 THEN
    n := 4
  END
END Test.
