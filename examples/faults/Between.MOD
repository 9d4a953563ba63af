MODULE Between;
VAR n: CARDINAL;
    small: BOOLEAN;
BEGIN
  n := 3;
  small := n > 1 AND n < 5
END Between.
