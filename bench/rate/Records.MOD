MODULE Records;
(* Sorts 300 records by exchanging neighbours, through a third record. Each turn makes them anew. *)
CONST turns = 6;
TYPE Item = RECORD number, key: CARDINAL; letter: CHAR; odd: BOOLEAN END;
VAR
  turn, seed, last, i: CARDINAL;
  third: Item;
  items: ARRAY [0 .. 299] OF Item;
BEGIN
  FOR turn := 1 TO turns DO
    seed := 1;
    FOR i := 0 TO 299 DO
      seed := seed * 5 MOD 10007;
      WITH items[i] DO
        number := i;
        key := seed;
        letter := CHR(seed MOD 26 + 65);
        odd := ODD(seed)
      END
    END;
    FOR last := 298 TO 0 BY -1 DO
      FOR i := 0 TO last DO
        IF items[i].key > items[i + 1].key THEN
          third := items[i];
          items[i] := items[i + 1];
          items[i + 1] := third
        END
      END
    END
  END
END Records.
