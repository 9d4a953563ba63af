MODULE Weekday;
TYPE Day = [1 .. 7];
VAR today: Day;
BEGIN
  today := 8
END Weekday.
