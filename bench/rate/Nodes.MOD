MODULE Nodes;
(* Makes a list of 5,000 nodes, and adds up its numbers again and again. *)
CONST turns = 120;
TYPE
  Link = POINTER TO Node;
  Node = RECORD value: CARDINAL; next: Link END;
VAR
  turn, i, sum: CARDINAL;
  first, node: Link;
BEGIN
  FOR i := 1 TO 5000 DO
    NEW(node);
    node^.value := i MOD 10;
    node^.next := first;
    first := node
  END;
  FOR turn := 1 TO turns DO
    sum := 0;
    node := first;
    WHILE node # NIL DO
      sum := sum + node^.value;
      node := node^.next
    END
  END
END Nodes.
