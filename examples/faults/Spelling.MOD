MODULE Spelling;
FROM InOut IMPORT WriteString, WriteLn;
BEGIN
  WriteString("Hello");
  Writeln
END Spelling.
