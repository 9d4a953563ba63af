MODULE Countdown;
(* Counts from ten down to zero, a number on each line. *)

FROM InOut IMPORT WriteCard, WriteString, WriteLn;

VAR count: CARDINAL;

BEGIN
  FOR count := 10 TO 0 BY -1 DO
    WriteCard(count, 2);
    WriteLn
  END;
  WriteString("Go!"); WriteLn
END Countdown.
