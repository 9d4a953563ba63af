MODULE Unequal;
VAR n: CARDINAL;
BEGIN
  n := 10;
  WHILE n != 0 DO
    n := n - 1
  END
END Unequal.
