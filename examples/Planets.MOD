MODULE Planets;
(* The planets, the one with the most moons first. *)
FROM InOut IMPORT WriteString, WriteCard, WriteLn;
CONST last = 7;
TYPE Planet = RECORD
       name: ARRAY [0..8] OF CHAR;
       moons: CARDINAL;
       rings: BOOLEAN
     END;
VAR sky: ARRAY [0..last] OF Planet;
    one: Planet;
    i, j: CARDINAL;
BEGIN
  WITH sky[0] DO name := "Mercury" END;
  WITH sky[1] DO name := "Venus" END;
  WITH sky[2] DO name := "Earth"; moons := 1 END;
  WITH sky[3] DO name := "Mars"; moons := 2 END;
  WITH sky[4] DO name := "Jupiter"; moons := 95; rings := TRUE END;
  WITH sky[5] DO name := "Saturn"; moons := 146; rings := TRUE END;
  WITH sky[6] DO name := "Uranus"; moons := 28; rings := TRUE END;
  WITH sky[7] DO name := "Neptune"; moons := 16; rings := TRUE END;
  FOR i := 1 TO last DO
    one := sky[i]; j := i;
    WHILE (j > 0) AND (sky[j - 1].moons < one.moons) DO
      sky[j] := sky[j - 1]; DEC(j)
    END;
    sky[j] := one
  END;
  FOR i := 0 TO last DO
    WITH sky[i] DO
      WriteString(name);
      j := 0;
      WHILE name[j] # 0C DO INC(j) END;
      WriteCard(moons, 14 - j);
      IF moons = 1 THEN WriteString(" moon") ELSE WriteString(" moons") END;
      IF rings THEN WriteString(", and rings") END
    END;
    WriteLn
  END
END Planets.
