MODULE Underline;
VAR word_count: CARDINAL;
BEGIN
  word_count := 0
END Underline.
