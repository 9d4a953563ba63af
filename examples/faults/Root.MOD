MODULE Root;
FROM MathLib0 IMPORT sqrt;
FROM InOut IMPORT WriteLn;
BEGIN
  WriteLn
END Root.
