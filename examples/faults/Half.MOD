MODULE Half;
VAR whole, half: CARDINAL;
BEGIN
  whole := 10;
  half := whole / 2
END Half.
