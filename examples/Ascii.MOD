MODULE Ascii;
(* The printing characters, sixteen on a line, with the number of the first in hexadecimal before them. *)

FROM InOut IMPORT Write, WriteHex, WriteLn;

CONST
  Columns = 16;

VAR
  c: CHAR;
  letters, digits: CARDINAL;

BEGIN
  FOR c := " " TO "~" DO
    IF ORD(c) MOD Columns = 0 THEN WriteHex(ORD(c), 2) END;
    Write(" ");
    Write(c);
    IF (ORD(c) MOD Columns = Columns - 1) OR (c = "~") THEN WriteLn END
  END;

  letters := 0;
  digits := 0;
  FOR c := MIN(CHAR) TO MAX(CHAR) DO
    CASE c OF
      "0" .. "9": INC(digits) |
      "A" .. "Z": INC(letters) |
      "a" .. "z": IF CAP(c) = CHR(ORD(c) - ORD("a") + ORD("A")) THEN INC(letters) END
    ELSE
    END
  END;
  Write("("); WriteHex(letters, 1); Write("H"); Write(" ");
  WriteHex(digits, 1); Write("H"); Write(")"); WriteLn
END Ascii.
