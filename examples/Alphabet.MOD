MODULE Alphabet;
(* The alphabet there and back, and Caesar's secret one: each letter becomes the one that stands three places later. *)

FROM InOut IMPORT Write, WriteLn;

CONST
  shift = 3;
  letters = 26;

VAR
  letter: CHAR;
  secret: ARRAY ["A" .. "Z"] OF CHAR;
  message: ARRAY [0 .. 15] OF CHAR;
  i: CARDINAL;

BEGIN
  FOR letter := "A" TO "Z" DO Write(letter) END;
  WriteLn;
  FOR letter := "z" TO "a" BY -1 DO Write(letter) END;
  WriteLn;

  FOR letter := "A" TO "Z" DO
    secret[letter] := CHR((ORD(letter) - ORD("A") + shift) MOD letters + ORD("A"));
    Write(secret[letter])
  END;
  WriteLn;

  message := "VENI VIDI VICI";
  i := 0;
  WHILE message[i] # 0C DO
    IF message[i] = " " THEN Write(" ") ELSE Write(secret[message[i]]) END;
    INC(i)
  END;
  WriteLn
END Alphabet.
