MODULE Equal;
VAR c: CARDINAL;
BEGIN
  c = 1
END Equal.
