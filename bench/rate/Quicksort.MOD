MODULE Quicksort;
(* Sorts 4,000 numbers, by a procedure that parts them at one of them and calls itself for both parts. Each turn makes
   them anew. *)
CONST turns = 6;
VAR
  turn, seed, i: CARDINAL;
  numbers: ARRAY [1 .. 4000] OF CARDINAL;

PROCEDURE sort(first, last: CARDINAL);
VAR low, high, middle, third: CARDINAL;
BEGIN
  low := first;
  high := last;
  middle := numbers[(first + last) DIV 2];
  REPEAT
    WHILE numbers[low] < middle DO low := low + 1 END;
    WHILE numbers[high] > middle DO high := high - 1 END;
    IF low <= high THEN
      third := numbers[low];
      numbers[low] := numbers[high];
      numbers[high] := third;
      low := low + 1;
      high := high - 1
    END
  UNTIL low > high;
  IF first < high THEN sort(first, high) END;
  IF low < last THEN sort(low, last) END
END sort;

BEGIN
  FOR turn := 1 TO turns DO
    seed := 1;
    FOR i := 1 TO 4000 DO
      seed := seed * 5 MOD 10007;
      numbers[i] := seed
    END;
    sort(1, 4000)
  END
END Quicksort.
