MODULE Range;
(* The same as Sum, where the sum is of a subrange and is tested at each store. *)
CONST turns = 60;
VAR outer, inner: CARDINAL; sum: [0 .. 60000];
BEGIN
  FOR outer := 1 TO turns DO
    sum := 0;
    FOR inner := 1 TO 20000 DO sum := sum + 3 END
  END
END Range.
