MODULE Limit;
VAR limit, n: CARDINAL;
BEGIN
  limit := 5;
  n := 5;
  CASE n OF
    limit: n := 0
  | 6: n := 1
  END
END Limit.
