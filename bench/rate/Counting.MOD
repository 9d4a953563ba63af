MODULE Counting;
(* Sorts 10,000 numbers from 0 to 255 by counting them. Each turn makes them anew. *)
CONST turns = 20;
VAR
  turn, seed, i, k, n: CARDINAL;
  counts: ARRAY [0 .. 255] OF CARDINAL;
  numbers: ARRAY [0 .. 9999] OF CARDINAL;
BEGIN
  FOR turn := 1 TO turns DO
    seed := 1;
    FOR i := 0 TO 9999 DO
      seed := seed * 5 MOD 10007;
      numbers[i] := seed MOD 256
    END;
    FOR k := 0 TO 255 DO counts[k] := 0 END;
    FOR i := 0 TO 9999 DO INC(counts[numbers[i]]) END;
    n := 0;
    FOR k := 0 TO 255 DO
      FOR i := 1 TO counts[k] DO
        numbers[n] := k;
        n := n + 1
      END
    END
  END
END Counting.
