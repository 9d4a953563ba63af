MODULE Twice;
VAR width, height: CARDINAL;
    area, width: CARDINAL;
BEGIN
  area := width * height
END Twice.
