MODULE Woodchuck;
(* The words of a rhyme in order, and how often each of them stands there. *)
FROM InOut IMPORT Write, WriteString, WriteCard, WriteLn;
CONST longest = 9;
TYPE Word = ARRAY [0..longest] OF CHAR;
     List = POINTER TO Entry;
     Entry = RECORD
       letters: Word;
       times: CARDINAL;
       next: List
     END;
VAR rhyme: ARRAY [0..79] OF CHAR;
    word: Word;
    head, before, entry: List;
    i, j: CARDINAL;
BEGIN
  rhyme := "how much wood would a woodchuck chuck if a woodchuck could chuck wood";
  NEW(head);
  REPEAT
    word := ""; j := 0;
    WHILE (rhyme[i] # " ") AND (rhyme[i] # 0C) DO
      word[j] := rhyme[i]; INC(i); INC(j)
    END;
    (* after all entries with lesser words *)
    before := head;
    LOOP
      entry := before^.next; j := 0;
      IF entry = NIL THEN EXIT END;
      WHILE (j < longest) AND (entry^.letters[j] = word[j]) DO INC(j) END;
      IF entry^.letters[j] >= word[j] THEN EXIT END;
      before := entry
    END;
    IF (entry # NIL) AND (entry^.letters[j] = word[j]) THEN
      INC(entry^.times)
    ELSE
      NEW(entry);
      WITH entry^ DO letters := word; times := 1; next := before^.next END;
      before^.next := entry
    END;
    INC(i)
  UNTIL rhyme[i - 1] = 0C;
  WHILE head^.next # NIL DO
    entry := head^.next;
    WITH entry^ DO
      WriteCard(times, 2); Write(" "); WriteString(letters); WriteLn;
      head^.next := next
    END;
    DISPOSE(entry)
  END;
  DISPOSE(head)
END Woodchuck.
