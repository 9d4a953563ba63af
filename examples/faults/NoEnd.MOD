MODULE NoEnd;
FROM Terminal IMPORT Write;
VAR c: CARDINAL;
BEGIN
  c := 3;
  WHILE c > 0 DO
    Write("A");
    c := c - 1
END NoEnd.
