MODULE Phrase;
FROM Terminal IMPORT Write, WriteLn;
BEGIN
  Write("Good morning");
  WriteLn
END Phrase.
