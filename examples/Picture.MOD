MODULE Picture;
(* A picture of bits: each row is a set of the columns that are dark. Half a
   flower is drawn, and its mirror image is joined to it. Then only the edge
   is shown, and at last both in turn, as in a negative. *)

FROM InOut IMPORT Write, WriteLn;

CONST last = 10;

TYPE picture = ARRAY [0 .. last] OF BITSET;

VAR flower, inner: picture;
    half: BITSET;
    row, column: CARDINAL;

BEGIN
  flower[0] := {7};
  flower[1] := {6, 7};
  flower[2] := {2, 6, 7};
  flower[3] := {1 .. 3, 5 .. 7};
  flower[4] := {1 .. 7};
  flower[5] := {2 .. 7};
  flower[6] := {4 .. 7};
  flower[7] := {6, 7};
  flower[8] := {3, 4, 7};
  flower[9] := {4 .. 7};
  flower[10] := {6, 7};

  (* the other half *)
  FOR row := 0 TO last DO
    half := flower[row];
    FOR column := 0 TO 7 DO
      IF column IN half THEN INCL(flower[row], 15 - column) END
    END
  END;

  (* what has dark neighbours on all four sides *)
  inner := flower;
  FOR row := 0 TO last DO
    FOR column := 0 TO 15 DO
      IF (row = 0) OR (row = last) OR (column = 0) OR (column = 15) THEN
        EXCL(inner[row], column)
      ELSIF NOT ({column - 1, column + 1} <= flower[row])
         OR NOT (column IN flower[row - 1] * flower[row + 1]) THEN
        EXCL(inner[row], column)
      END
    END
  END;

  FOR row := 0 TO last DO
    FOR column := 0 TO 15 DO
      IF column IN flower[row] THEN Write("#") ELSE Write(" ") END
    END;
    Write(" ");
    FOR column := 0 TO 15 DO
      IF column IN flower[row] - inner[row] THEN Write("#") ELSE Write(" ") END
    END;
    Write(" ");
    FOR column := 0 TO 15 DO
      IF column IN flower[row] / {0 .. 7} THEN Write("#") ELSE Write(" ") END
    END;
    WriteLn
  END
END Picture.
