MODULE Column;
FROM InOut IMPORT WriteCard, WriteLn;
BEGIN
  WriteCard(42);
  WriteLn
END Column.
