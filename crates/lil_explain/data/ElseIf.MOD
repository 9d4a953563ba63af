MODULE ElseIf;
FROM InOut IMPORT WriteString, WriteLn;
VAR age: CARDINAL;
BEGIN
  age := 17;
  IF age < 6 THEN WriteString("child")
  ELSE IF age < 18 THEN WriteString("pupil")
  ELSE WriteString("adult")
  END;
  WriteLn
END ElseIf.
