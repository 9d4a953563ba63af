MODULE Life;
(* Conway's game of life. A cell lives on with two or three neighbours, and is born with three. A glider and a blinker on a
   small field, whose border stays empty. *)
FROM InOut IMPORT Write, WriteLn;

CONST
  rows = 8;
  columns = 16;
  last = 4;

TYPE
  cell = RECORD
    lives: BOOLEAN;
    near: [0 .. 8]
  END;

VAR
  field: ARRAY [0 .. rows + 1], [0 .. columns + 1] OF cell;
  generation, row, column, above, beside: CARDINAL;

BEGIN
  field[1, 2].lives := TRUE;
  field[2, 3].lives := TRUE;
  field[3, 1].lives := TRUE;
  field[3, 2].lives := TRUE;
  field[3, 3].lives := TRUE;
  FOR column := 11 TO 13 DO field[5, column].lives := TRUE END;
  FOR generation := 0 TO last DO
    FOR row := 1 TO rows DO
      FOR column := 1 TO columns DO
        IF field[row, column].lives THEN Write("o") ELSE Write(".") END
      END;
      WriteLn
    END;
    WriteLn;
    FOR row := 1 TO rows DO
      FOR column := 1 TO columns DO
        field[row, column].near := 0;
        FOR above := row - 1 TO row + 1 DO
          FOR beside := column - 1 TO column + 1 DO
            IF ((above # row) OR (beside # column)) AND field[above, beside].lives THEN
              INC(field[row, column].near)
            END
          END
        END
      END
    END;
    FOR row := 1 TO rows DO
      FOR column := 1 TO columns DO
        field[row, column].lives := (field[row, column].near = 3) OR (field[row, column].near = 2) AND field[row, column].lives
      END
    END
  END
END Life.
