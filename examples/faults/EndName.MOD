MODULE EndName;
FROM Terminal IMPORT Write;
BEGIN
  Write("A")
END Endname.
