MODULE Hanoi;
(* The towers of Hanoi: disks of different sizes go from the left peg to the right one, one at a time, and none ever lies
   on a smaller one. To move a tower, move all but its lowest disk out of the way, move that, and then the others on it. *)
FROM Terminal IMPORT Write, WriteString, WriteLn;
FROM InOut IMPORT WriteCard;

CONST disks = 4;

TYPE Peg = (left, middle, right);

VAR moves: CARDINAL;

PROCEDURE Show(peg: Peg);
BEGIN
  CASE peg OF
    left: WriteString("left")
  | middle: WriteString("middle")
  | right: WriteString("right")
  END
END Show;

(* Counts a move of a disk, and shows it. *)
PROCEDURE Count(VAR number: CARDINAL; disk: CARDINAL; from, to: Peg);
BEGIN
  INC(number);
  WriteCard(number, 3); WriteString(". disk "); WriteCard(disk, 1);
  WriteString(" from "); Show(from); WriteString(" to "); Show(to); WriteLn
END Count;

PROCEDURE Move(height: CARDINAL; from, over, to: Peg);
BEGIN
  IF height = 0 THEN RETURN END;
  Move(height - 1, from, to, over);
  Count(moves, height, from, to);
  Move(height - 1, over, from, to)
END Move;

BEGIN
  moves := 0;
  Move(disks, left, middle, right);
  WriteCard(moves, 1); WriteString(" moves"); WriteLn
END Hanoi.
