MODULE Lockers;
(* Eight lockers, each larger than the one before, and their keys, which got mixed up. A key is the address of its
   locker, so it opens this one alone: the stars. Then locker 3 is cleared and let anew, and no old key opens it. *)
FROM InOut IMPORT WriteString, WriteCard, WriteLn;
FROM SYSTEM IMPORT ADDRESS;
FROM Storage IMPORT ALLOCATE, DEALLOCATE;
CONST last = 8;
      words = 20;
VAR locker, key: ARRAY [1..last] OF ADDRESS;
    spare: ADDRESS;
    i, j: CARDINAL;
BEGIN
  FOR i := 1 TO last DO
    ALLOCATE(locker[i], words * i);
    key[5 * i MOD (last + 1)] := locker[i]
  END;
  spare := key[6];
  WriteString("locker ");
  FOR i := 1 TO last DO WriteCard(i, 2) END;
  WriteLn;
  FOR j := 1 TO last DO
    WriteString("key"); WriteCard(j, 2); WriteString("  ");
    FOR i := 1 TO last DO
      IF key[j] = locker[i] THEN WriteString(" *") ELSE WriteString(" .") END
    END;
    WriteLn
  END;
  DEALLOCATE(locker[3], words * 3);
  IF locker[3] = NIL THEN WriteString("locker 3 is cleared"); WriteLn END;
  ALLOCATE(locker[3], words * 3);
  IF spare = key[6] THEN WriteString("the spare key is like key 6"); WriteLn END;
  IF spare # locker[3] THEN WriteString("but locker 3 has a new lock"); WriteLn END
END Lockers.
