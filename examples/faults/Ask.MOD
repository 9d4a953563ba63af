MODULE Ask;
FROM InOut IMPORT WriteString, ReadCard;
VAR age: CARDINAL;
BEGIN
  WriteString("Your age? ");
  ReadCard(age)
END Ask.
