MODULE Curly;
FROM InOut IMPORT WriteString;
BEGIN
  WriteString(“Hello”)
END Curly.
