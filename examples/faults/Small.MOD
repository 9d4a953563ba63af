MODULE Small;
FROM InOut IMPORT WriteString;
VAR n: CARDINAL;
BEGIN
  n := 3;
  while n > 0 do
    WriteString("again ");
    n := n - 1
  end
END Small.
