MODULE Parity;
(* Even and odd, each told by the other: 0 is even, and any other number is even if the one before it is odd. A procedure may
   call one that is declared below it. *)
FROM Terminal IMPORT WriteString, WriteLn;
FROM InOut IMPORT WriteCard;

VAR number: CARDINAL;

PROCEDURE IsEven(number: CARDINAL): BOOLEAN;
BEGIN
  IF number = 0 THEN RETURN TRUE END;
  RETURN IsOdd(number - 1)
END IsEven;

PROCEDURE IsOdd(number: CARDINAL): BOOLEAN;
BEGIN
  IF number = 0 THEN RETURN FALSE END;
  RETURN IsEven(number - 1)
END IsOdd;

BEGIN
  FOR number := 0 TO 12 BY 3 DO
    WriteCard(number, 2);
    IF IsEven(number) THEN WriteString(" is even") ELSE WriteString(" is odd") END;
    WriteLn
  END
END Parity.
