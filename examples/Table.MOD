MODULE Table;
(* The products of the numbers from 1 to 12, in columns of four characters. *)

FROM InOut IMPORT WriteCard, WriteLn;

CONST
  last = 12;

VAR
  row, column: CARDINAL;

BEGIN
  FOR row := 1 TO last DO
    FOR column := 1 TO last DO WriteCard(row * column, 4) END;
    WriteLn
  END
END Table.
