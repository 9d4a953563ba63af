MODULE Tour; FROM Terminal IMPORT Write; VAR c: CARDINAL;
BEGIN c := 7; Write(CHR(c * 9 + 2)) END Tour.
