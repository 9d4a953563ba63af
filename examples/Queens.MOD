MODULE Queens;
(* Eight queens on a chess board, none of which attacks another: the first board that is found, and how many there are.
   Queens are put row by row. Where a row has no place left, the queen of the row before it goes on. *)
FROM InOut IMPORT Write, WriteLn, WriteCard;

CONST
  size = 8;

TYPE
  place = [1 .. size];

VAR
  row, column: INTEGER;
  boards: CARDINAL;
  queen: ARRAY place OF INTEGER;             (* the column of each row's queen, 0 for none *)
  taken: ARRAY place OF BOOLEAN;             (* the columns *)
  rising: ARRAY [2 .. 16] OF BOOLEAN;        (* the diagonals, by row + column *)
  falling: ARRAY [-7 .. 7] OF BOOLEAN;       (* and by row - column *)

BEGIN
  row := 1;
  LOOP
    column := queen[row];
    IF column # 0 THEN
      taken[column] := FALSE;
      rising[row + column] := FALSE;
      falling[row - column] := FALSE
    END;
    REPEAT
      INC(column)
    UNTIL (column > size) OR NOT (taken[column] OR rising[row + column] OR falling[row - column]);
    IF column <= size THEN
      queen[row] := column;
      taken[column] := TRUE;
      rising[row + column] := TRUE;
      falling[row - column] := TRUE;
      IF row < size THEN
        INC(row)
      ELSE
        INC(boards);
        IF boards = 1 THEN
          FOR row := 1 TO size DO
            FOR column := 1 TO size DO
              IF queen[row] = column THEN Write("Q") ELSE Write(".") END;
              Write(" ")
            END;
            WriteLn
          END;
          row := size
        END
      END
    ELSE
      queen[row] := 0;
      IF row = 1 THEN EXIT END;
      DEC(row)
    END
  END;
  WriteCard(boards, 1);
  WriteLn
END Queens.
