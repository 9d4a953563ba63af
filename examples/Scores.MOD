MODULE Scores;
(* Procedures for arrays of any length. The median needs a sorted array: it sorts a copy, and the days stay as they are. *)
FROM InOut IMPORT WriteCard, WriteLn, WriteString;

VAR monday: ARRAY [1..7] OF CARDINAL;
    tuesday: ARRAY [0..3] OF CARDINAL;
    i: CARDINAL;

PROCEDURE Sort(VAR a: ARRAY OF CARDINAL);
VAR i, j, held: CARDINAL;
BEGIN
  FOR i := 1 TO HIGH(a) DO
    held := a[i];
    j := i;
    WHILE (j > 0) & (a[j - 1] > held) DO
      a[j] := a[j - 1];
      DEC(j)
    END;
    a[j] := held
  END
END Sort;

PROCEDURE Median(a: ARRAY OF CARDINAL): CARDINAL;
BEGIN
  Sort(a);
  RETURN a[HIGH(a) DIV 2]
END Median;

PROCEDURE Show(title: ARRAY OF CHAR; a: ARRAY OF CARDINAL);
VAR i: CARDINAL;
BEGIN
  WriteString(title);
  FOR i := 0 TO HIGH(a) DO WriteCard(a[i], 3) END;
  WriteString(", median");
  WriteCard(Median(a), 3);
  WriteLn
END Show;

BEGIN
  FOR i := 1 TO 7 DO monday[i] := i * i * 5 MOD 17 END;
  FOR i := 0 TO 3 DO tuesday[i] := (i + 3) * 7 MOD 10 END;
  Show("Monday: ", monday);
  Show("Tuesday:", tuesday);
  Sort(monday);
  Show("sorted: ", monday)
END Scores.
