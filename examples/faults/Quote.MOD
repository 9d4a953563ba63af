MODULE Quote;
FROM InOut IMPORT WriteString;
BEGIN
  WriteString("How are you?');
  WriteString("Fine")
END Quote.
