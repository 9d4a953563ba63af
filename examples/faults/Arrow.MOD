MODULE Arrow;
TYPE List = POINTER TO Entry;
     Entry = RECORD key: CARDINAL; next: List END;
VAR list: List;
BEGIN
  NEW(list);
  list.key := 1
END Arrow.
