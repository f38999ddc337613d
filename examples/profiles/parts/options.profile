// Options of 0 to 10 words of 32 bits, as IPv4 has behind its header, in chunks of at most 64 bits. The header's length counts them: it is 5 more. The
// length of a chunk is an expression. There is no minimum and no condition as a number, but (words + 16 - n) / 16 is 1 where words is at least n, and
// else 0, for numbers up to 16. Options that are as before are not sent.
//
// Headers and their packets, one after the other from an empty context on:
// 8:45 -> 5:58
// 104:480102030405060708090a0b0c -> 101:88081018202830384048505860
// 104:480102030405060708090a0b0c -> 5:80
// 328:4f00000000000000000000000000000000000000000000000000000000000000000000000000000000
//   -> 325:f800000000000000000000000000000000000000000000000000000000000000000000000000000000

FIXED = 5; // words of the header without options

options(words)
{
  UNCOMPRESSED
  {
    first [32 * ((words + 15) / 16 + (words + 14) / 16)];
    second [32 * ((words + 13) / 16 + (words + 12) / 16)];
    third [32 * ((words + 11) / 16 + (words + 10) / 16)];
    fourth [32 * ((words + 9) / 16 + (words + 8) / 16)];
    fifth [32 * ((words + 7) / 16 + (words + 6) / 16)];
  }
  COMPRESSED same
  {
    kind =:= '0' [1];
    first =:= static [0];
    second =:= static [0];
    third =:= static [0];
    fourth =:= static [0];
    fifth =:= static [0];
  }
  COMPRESSED sent
  {
    kind =:= '1' [1];
    first =:= irregular(first.ULENGTH) [first.ULENGTH];
    second =:= irregular(second.ULENGTH) [second.ULENGTH];
    third =:= irregular(third.ULENGTH) [third.ULENGTH];
    fourth =:= irregular(fourth.ULENGTH) [fourth.ULENGTH];
    fifth =:= irregular(fifth.ULENGTH) [fifth.ULENGTH];
  }
}

with_options
{
  UNCOMPRESSED
  {
    version =:= uncompressed_value(4, 4) [4];
    header_length [4];
    options [VARIABLE];
    ENFORCE(header_length.UVALUE >= FIXED);
  }
  COMPRESSED
  {
    header_length =:= irregular(4) [4];
    options =:= options(header_length.UVALUE - FIXED) [VARIABLE];
  }
}
