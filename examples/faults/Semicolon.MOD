MODULE Semicolon;
FROM Terminal IMPORT Write;
BEGIN
  Write("H")
  Write("I")
END Semicolon.
