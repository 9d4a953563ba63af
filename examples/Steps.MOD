MODULE Steps;
(* Sixteen steps of a row of cells. After a step a cell is dark if just one of its two neighbours was dark before.
   One dark cell at the beginning is enough for triangles within triangles. *)

FROM InOut IMPORT Write, WriteLn;

CONST
  steps = 16;
  middle = 16;
  last = 2 * middle;

VAR
  cells, before: ARRAY [0 .. last] OF BOOLEAN;
  step, i: CARDINAL;

BEGIN
  cells[middle] := TRUE;
  FOR step := 1 TO steps DO
    FOR i := 1 TO last - 1 DO
      IF cells[i] THEN Write("*") ELSE Write(" ") END
    END;
    WriteLn;
    before := cells;
    FOR i := 1 TO last - 1 DO
      cells[i] := before[i - 1] # before[i + 1]
    END
  END
END Steps.
