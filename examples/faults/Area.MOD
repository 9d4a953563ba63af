MODULE Area;
VAR area: CARDINAL;
BEGIN
  area := 300 * 300
END Area.
