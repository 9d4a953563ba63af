MODULE Forgot;
FROM InOut IMPORT WriteString, WriteLn;
BEGIN
  WriteString("7 times 8 is ");
  WriteCard(7 * 8, 2);
  WriteLn
END Forgot.
