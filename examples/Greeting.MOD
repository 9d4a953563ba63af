MODULE Greeting;
(* A greeting in a frame that is as wide as its longest line. *)

FROM InOut IMPORT WriteString, WriteLn;

CONST
  last = 2;

TYPE
  Line = ARRAY [0 .. 39] OF CHAR;

VAR
  line: ARRAY [0 .. last] OF Line;
  length: ARRAY [0 .. last] OF CARDINAL;
  border: ARRAY [0 .. 41] OF CHAR;
  longest, i, j: CARDINAL;

BEGIN
  line[0] := "Good morning, Lilith.";
  line[1] := "How do you do?";
  line[2] := "It is a long time since 1980.";

  (* all lengths are 0 at first, and 0C stands after the last character of a line *)
  FOR i := 0 TO last DO
    WHILE line[i][length[i]] # 0C DO INC(length[i]) END;
    IF length[i] > longest THEN longest := length[i] END
  END;
  FOR j := 0 TO longest + 1 DO border[j] := "-" END;

  WriteString("+"); WriteString(border); WriteString("+"); WriteLn;
  FOR i := 0 TO last DO
    WriteString("| "); WriteString(line[i]);
    FOR j := length[i] TO longest DO WriteString(" ") END;
    WriteString("|"); WriteLn
  END;
  WriteString("+"); WriteString(border); WriteString("+"); WriteLn
END Greeting.
