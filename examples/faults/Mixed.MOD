MODULE Mixed;
VAR letter: CHAR;
    count: CARDINAL;
BEGIN
  letter := "A";
  count := letter
END Mixed.
