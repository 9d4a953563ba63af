MODULE Price;
VAR price: REAL;
BEGIN
  price := 3.50
END Price.
