MODULE Heap; TYPE P = POINTER TO R; R = RECORD key: CARDINAL; next: P END;
VAR a: ARRAY [0..2] OF R; i: CARDINAL;
BEGIN i := 1; NEW(a[i].next);
  a[i].next^.key := 1
END Heap.
