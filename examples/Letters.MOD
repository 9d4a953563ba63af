MODULE Letters;
(* Sorts the letters of a sentence in a tree. Each node has the letters before its own to the left, and those after it to
   the right. Show is called again from inside, for the one side and for the other, and each call keeps its own node in
   its own variable. *)
FROM Terminal IMPORT Write, WriteString, WriteLn;
FROM InOut IMPORT WriteCard;

TYPE
  Tree = POINTER TO Node;
  Node = RECORD letter: CHAR; count: CARDINAL; left, right: Tree END;

VAR
  sentence: ARRAY [0..46] OF CHAR;
  root, at: Tree;
  letter: CHAR;
  i: CARDINAL;

(* Puts the letter into the tree below root. *)
PROCEDURE Insert;
  VAR node: Tree;

  (* A new node for it. *)
  PROCEDURE Make;
  BEGIN
    NEW(node);
    node^.letter := letter;
    node^.count := 1
  END Make;

BEGIN
  IF root = NIL THEN Make; root := node; RETURN END;
  at := root;
  LOOP
    IF letter = at^.letter THEN
      INC(at^.count); RETURN
    ELSIF letter < at^.letter THEN
      IF at^.left = NIL THEN Make; at^.left := node; RETURN END;
      at := at^.left
    ELSE
      IF at^.right = NIL THEN Make; at^.right := node; RETURN END;
      at := at^.right
    END
  END
END Insert;

(* Shows the letters of the tree below at, in their order. *)
PROCEDURE Show;
  VAR here: Tree; n: CARDINAL;
BEGIN
  IF at # NIL THEN
    here := at;
    at := here^.left; Show;
    Write(here^.letter); WriteCard(here^.count, 3); Write(' ');
    FOR n := 1 TO here^.count DO Write('*') END;
    WriteLn;
    at := here^.right; Show
  END
END Show;

BEGIN
  sentence := "the quick brown fox jumps over the lazy dog";
  WriteString(sentence); WriteLn;
  FOR i := 0 TO 46 DO
    letter := sentence[i];
    IF (letter >= 'a') & (letter <= 'z') THEN Insert END
  END;
  at := root; Show
END Letters.
