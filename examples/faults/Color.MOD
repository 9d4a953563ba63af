MODULE Color;
TYPE Colour = (red, green, blue);
VAR c: Color;
BEGIN
  c := red
END Color.
