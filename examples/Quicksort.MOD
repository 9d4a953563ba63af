MODULE Quicksort;
(* One quicksort for every order: which of two numbers comes first is for a function to say, and the function is a parameter. *)
FROM InOut IMPORT WriteCard, WriteLn, WriteString;

TYPE Order = PROCEDURE (CARDINAL, CARDINAL): BOOLEAN;
     Title = ARRAY [0..19] OF CHAR;

VAR numbers: ARRAY [1..12] OF CARDINAL;
    i: CARDINAL;

PROCEDURE Rising(x, y: CARDINAL): BOOLEAN;
BEGIN
  RETURN x < y
END Rising;

PROCEDURE Falling(x, y: CARDINAL): BOOLEAN;
BEGIN
  RETURN x > y
END Falling;

PROCEDURE LastDigit(x, y: CARDINAL): BOOLEAN;
BEGIN
  IF x MOD 10 = y MOD 10 THEN RETURN x < y END;
  RETURN x MOD 10 < y MOD 10
END LastDigit;

PROCEDURE OddFirst(x, y: CARDINAL): BOOLEAN;
BEGIN
  IF ODD(x) = ODD(y) THEN RETURN x < y END;
  RETURN ODD(x)
END OddFirst;

PROCEDURE Sort(VAR a: ARRAY OF CARDINAL; before: Order);

  PROCEDURE Part(low, high: INTEGER);
  VAR i, j: INTEGER;
      middle, held: CARDINAL;
  BEGIN
    i := low;
    j := high;
    middle := a[(low + high) DIV 2];
    REPEAT
      WHILE before(a[i], middle) DO INC(i) END;
      WHILE before(middle, a[j]) DO DEC(j) END;
      IF i <= j THEN
        held := a[i];
        a[i] := a[j];
        a[j] := held;
        INC(i);
        DEC(j)
      END
    UNTIL i > j;
    IF low < j THEN Part(low, j) END;
    IF i < high THEN Part(i, high) END
  END Part;

BEGIN
  Part(0, HIGH(a))
END Sort;

PROCEDURE Show(title: Title; order: Order);
VAR i: CARDINAL;
BEGIN
  Sort(numbers, order);
  WriteString(title);
  FOR i := 1 TO 12 DO WriteCard(numbers[i], 4) END;
  WriteLn
END Show;

BEGIN
  FOR i := 1 TO 12 DO numbers[i] := i * i * 31 MOD 97 END;
  Show("rising:    ", Rising);
  Show("falling:   ", Falling);
  Show("last digit:", LastDigit);
  Show("odd first: ", OddFirst)
END Quicksort.
