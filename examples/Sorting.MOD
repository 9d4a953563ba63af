MODULE Sorting;
(* Sorts numbers by Hoare's quicksort: those that are less than one of them go to the left, those that are greater to the
   right, and then each side is sorted in the same way. Swap changes the two variables that it is given. *)
FROM Terminal IMPORT WriteString, WriteLn;
FROM InOut IMPORT WriteCard;

CONST count = 20;

TYPE
  Index = [1..count];
  Numbers = ARRAY Index OF CARDINAL;

VAR
  numbers: Numbers;
  i: Index;
  seed: CARDINAL;

PROCEDURE Swap(VAR a, b: CARDINAL);
  VAR old: CARDINAL;
BEGIN
  old := a; a := b; b := old
END Swap;

PROCEDURE Show(VAR row: Numbers);
  VAR i: Index;
BEGIN
  FOR i := 1 TO count DO WriteCard(row[i], 4) END;
  WriteLn
END Show;

(* Sorts the part of a row from the one index to the other. *)
PROCEDURE Sort(VAR row: Numbers; from, to: CARDINAL);
  VAR low, high, middle: CARDINAL;
BEGIN
  low := from; high := to; middle := row[(from + to) DIV 2];
  REPEAT
    WHILE row[low] < middle DO INC(low) END;
    WHILE middle < row[high] DO DEC(high) END;
    IF low <= high THEN
      Swap(row[low], row[high]);
      INC(low); DEC(high)
    END
  UNTIL low > high;
  IF from < high THEN Sort(row, from, high) END;
  IF low < to THEN Sort(row, low, to) END
END Sort;

BEGIN
  seed := 7;
  FOR i := 1 TO count DO
    seed := (seed * 17 + 5) MOD 1000;
    numbers[i] := seed
  END;
  WriteString("before:"); WriteLn; Show(numbers);
  Sort(numbers, 1, count);
  WriteString("sorted:"); WriteLn; Show(numbers)
END Sorting.
