tick
{
  UNCOMPRESSED { sn [16]; rest [8]; }
  DEFAULT { rest =:= irregular(8); }
  COMPRESSED few { d =:= '1' [1]; sn =:= lsb(4, 0) [4]; rest [8]; }
  COMPRESSED full { d =:= '0' [1]; sn =:= irregular(16) [16]; rest [8]; }
}
