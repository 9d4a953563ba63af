PROGRAM Pascal;
BEGIN
  writeln('Hello')
END.
