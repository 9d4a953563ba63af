MODULE Calendar;
(* November 2026, a week on each line, with Monday first. *)

FROM InOut IMPORT WriteCard, WriteString, WriteLn;

TYPE
  Weekday = (Monday, Tuesday, Wednesday, Thursday, Friday, Saturday, Sunday);
  DayOfMonth = [1 .. 31];

CONST
  First = Sunday;
  Length = 30;

VAR
  weekday: Weekday;
  day: DayOfMonth;

BEGIN
  FOR weekday := Monday TO Sunday DO
    CASE weekday OF
      Monday: WriteString(" Mo") |
      Tuesday: WriteString(" Tu") |
      Wednesday: WriteString(" We") |
      Thursday: WriteString(" Th") |
      Friday: WriteString(" Fr") |
      Saturday: WriteString(" Sa") |
      Sunday: WriteString(" Su")
    END
  END;
  WriteLn;

  weekday := Monday;
  WHILE weekday < First DO
    WriteString("   ");
    INC(weekday)
  END;
  FOR day := 1 TO Length DO
    WriteCard(day, 3);
    IF weekday = Sunday THEN
      weekday := Monday;
      WriteLn
    ELSE
      INC(weekday)
    END
  END;
  IF weekday # Monday THEN WriteLn END
END Calendar.
