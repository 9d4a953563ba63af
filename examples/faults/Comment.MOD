MODULE Comment;
FROM Terminal IMPORT Write;
BEGIN
  (* shows the letter A *)
  Write("A")  (* the letter
END Comment.
