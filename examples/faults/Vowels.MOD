MODULE Vowels;
VAR letter: CHAR;
    count: CARDINAL;
BEGIN
  CASE letter OF
    "a", "e", "i", "o": count := count + 1
  | "u", "y", "a": count := count + 2
  END
END Vowels.
