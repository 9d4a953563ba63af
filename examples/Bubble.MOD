MODULE Bubble;
(* Sorts the letters of a word by exchanging neighbours, and shows the word after each pass. In each pass the greatest
   letter that isn't at its place yet rises to it, as a bubble does. *)

FROM InOut IMPORT WriteString, WriteLn;

VAR
  word: ARRAY [0 .. 15] OF CHAR;
  letter: CHAR;
  i: CARDINAL;
  sorted: BOOLEAN;

BEGIN
  word := "WORKSTATION";
  REPEAT
    WriteString(word);
    WriteLn;
    sorted := TRUE;
    i := 1;
    WHILE word[i] # 0C DO
      IF word[i - 1] > word[i] THEN
        letter := word[i];
        word[i] := word[i - 1];
        word[i - 1] := letter;
        sorted := FALSE
      END;
      INC(i)
    END
  UNTIL sorted
END Bubble.
