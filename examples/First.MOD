MODULE First;
FROM InOut IMPORT WriteString, WriteLn;
BEGIN
  WriteString("Good morning, Lilith."); WriteLn
END First.
