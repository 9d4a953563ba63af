MODULE Power;
VAR c: CARDINAL;

PROCEDURE Raise(base, exponent: CARDINAL): CARDINAL;
VAR result: CARDINAL;
BEGIN
  result := 1;
  WHILE exponent > 0 DO
    result := result * base;
    DEC(exponent)
  END;
  RETURN result
END Raise;

BEGIN
  c := Raise(2)
END Power.
