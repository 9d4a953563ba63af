MODULE Sum;
VAR signed: INTEGER;
    plain: CARDINAL;
BEGIN
  signed := signed + plain
END Sum.
