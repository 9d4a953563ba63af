MODULE Long;
VAR people: LONGINT;
BEGIN
  people := 8000
END Long.
