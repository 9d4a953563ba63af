MODULE Squares;
VAR square: ARRAY [1 .. 10] OF CARDINAL;
    n: CARDINAL;
BEGIN
  FOR n := 1 TO 10 DO
    square(n) := n * n
  END
END Squares.
