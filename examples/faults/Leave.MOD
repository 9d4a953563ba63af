MODULE Leave;
VAR c: CARDINAL;
BEGIN
  c := 10;
  WHILE c > 0 DO
    IF c = 5 THEN EXIT END;
    c := c - 1
  END
END Leave.
