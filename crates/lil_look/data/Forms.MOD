MODULE Forms;
  (* a statement of each form, none of which does much *)
  FROM Terminal IMPORT Write, WriteLn, WriteString;
  FROM InOut IMPORT WriteCard;
  FROM Storage IMPORT ALLOCATE;
  FROM SYSTEM IMPORT ADDRESS;
  CONST last = 3;
  TYPE
    Day = (Monday, Tuesday, Sunday);
    Days = SET OF Day;
    Link = POINTER TO Item;
    Item = RECORD day: Day; count: CARDINAL; next: Link END;
  VAR
    list: Link;
    row: ARRAY [0..last] OF Item;
    days: Days;
    name: ARRAY [0..7] OF CHAR;
    i: CARDINAL;
    k: INTEGER;
    block: ADDRESS;
    done: BOOLEAN;
BEGIN
  name := "Lilith";
  days := Days{Monday, Tuesday .. Sunday};
  NEW(list);
  ALLOCATE(block, 10);
  FOR i := 0 TO last DO
    WITH row[i] DO
      day := Tuesday; count := i * i;
      next := list
    END
  END;
  row[1] := row[2];
  i := 0;
  WHILE (i < 3) AND NOT done DO
    IF row[i].count = 1 THEN
      INC(i, 2)
    ELSIF i = 2 THEN
      done := TRUE
    ELSE
      INC(i)
    END
  END;
  REPEAT
    k := -5 DIV 2;
    EXCL(days, Monday)
  UNTIL done OR (ABS(k) < 3);
  LOOP
    CASE i OF
      0, 2: Write("a")
    | 3 .. 5: EXIT
    ELSE
      HALT
    END;
    INC(i)
  END;
  CASE row[0].day OF
    Monday: WriteString(name)
  | Tuesday: WriteString("Tuesday, the second day"); WriteLn
  END;
  WriteCard(row[3].count, 4);
  list^.next := NIL;
  RETURN
END Forms.
