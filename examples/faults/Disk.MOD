MODULE Disk;
FROM InOut IMPORT WriteLn;
BEGIN
  WriteLn
END Disk.
