MODULE Person;
TYPE Human = RECORD age, height: CARDINAL END;
VAR anna: Human;
BEGIN
  anna.hight := 170
END Person.
