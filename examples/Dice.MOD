MODULE Dice;
(* Two dice are thrown a thousand times. How often each sum came, as a bar of stars, one for each ten throws. *)
FROM InOut IMPORT Write, WriteLn, WriteCard;

CONST
  throws = 1000;

TYPE
  face = [1 .. 6];

VAR
  seed, throw, sum, star: CARDINAL;
  die: ARRAY [0 .. 1] OF face;
  came: ARRAY [2 .. 12] OF CARDINAL;

BEGIN
  seed := 7;
  FOR throw := 1 TO throws DO
    FOR star := 0 TO 1 DO
      (* each number follows from the one before it; no product passes 65535 *)
      seed := (seed MOD 873) * 75 + seed DIV 873 + 1;
      die[star] := seed DIV 32 MOD 6 + 1
    END;
    INC(came[die[0] + die[1]])
  END;
  FOR sum := 2 TO 12 DO
    WriteCard(sum, 2);
    WriteCard(came[sum], 5);
    Write(" ");
    FOR star := 1 TO came[sum] DIV 10 DO Write("*") END;
    WriteLn
  END
END Dice.
