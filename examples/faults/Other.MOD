MODULE Another;
FROM InOut IMPORT WriteLn;
BEGIN
  WriteLn
END Another.
