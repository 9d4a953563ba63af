MODULE Cast;
VAR signed: INTEGER;
    plain: CARDINAL;
BEGIN
  plain := 5;
  signed := INTEGER(plain)
END Cast.
