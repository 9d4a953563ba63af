MODULE Point;
VAR n: CARDINAL;
BEGIN
  n := 1
END Point
