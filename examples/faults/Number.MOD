MODULE Number;
FROM Terminal IMPORT Write;
VAR c: CARDINAL;
BEGIN
  FOR c := 1 TO 10DO
    Write("A")
  END
END Number.
