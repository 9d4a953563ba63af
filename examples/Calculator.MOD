MODULE Calculator;
(* Works out a sum by recursive descent: each rule of its grammar is a function.

     sum     = product { ("+" | "-") product } .
     product = factor { ("*" | "/") factor } .
     factor  = digit { digit } | "(" sum ")" .

   A function reads its part of the text from at on, and returns its value. So
   factor may call sum, inside of which it stands. *)
FROM InOut IMPORT WriteString, WriteInt, WriteLn;
VAR
  text: ARRAY [0..39] OF CHAR;
  at: CARDINAL;

(* Whether this character is next, which is then read. *)
PROCEDURE Took(character: CHAR): BOOLEAN;
BEGIN
  IF text[at] # character THEN RETURN FALSE END;
  INC(at);
  RETURN TRUE
END Took;

PROCEDURE Sum(): INTEGER;
VAR sum: INTEGER;

  PROCEDURE Product(): INTEGER;
  VAR product: INTEGER;

    PROCEDURE Factor(): INTEGER;
    VAR factor: INTEGER;
    BEGIN
      IF Took("(") THEN
        factor := Sum();
        IF Took(")") THEN RETURN factor END;
        HALT
      END;
      factor := 0;
      WHILE (text[at] >= "0") AND (text[at] <= "9") DO
        factor := 10 * factor + VAL(INTEGER, ORD(text[at]) - ORD("0"));
        INC(at)
      END;
      RETURN factor
    END Factor;

  BEGIN
    product := Factor();
    LOOP
      IF Took("*") THEN
        product := product * Factor()
      ELSIF Took("/") THEN
        product := product DIV Factor()
      ELSE
        RETURN product
      END
    END
  END Product;

BEGIN
  sum := Product();
  LOOP
    IF Took("+") THEN
      sum := sum + Product()
    ELSIF Took("-") THEN
      sum := sum - Product()
    ELSE
      RETURN sum
    END
  END
END Sum;

PROCEDURE Show;
BEGIN
  at := 0;
  WriteString(text); WriteString(" = "); WriteInt(Sum(), 1); WriteLn
END Show;

BEGIN
  text := "2*(3+4)-18/(5-2)"; Show;
  text := "((1+2)*(3+4)-1)*100"; Show;
  text := "7-(8-(9-(10-11)))"; Show
END Calculator.
