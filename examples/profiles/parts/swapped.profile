// Two counters of 16 bits whose two octets are exchanged, as a host sends them that keeps the lower octet first. What counts is a control field, with the
// octets in their order; the conditions say it both ways, one to write and one to read. What is sent are its low bits, or all 16.
//
// Headers and their packets, one after the other from an empty context on:
// 32:ff000100 -> 33:807f800080
// 32:00010200 -> 8:02

swapped(bits)
{
  UNCOMPRESSED
  {
    low [8];
    high [8];
  }
  CONTROL
  {
    count [16];
    ENFORCE(count.UVALUE == high.UVALUE * 256 + low.UVALUE);
    ENFORCE(high.UVALUE == count.UVALUE / 256 && low.UVALUE == count.UVALUE % 256);
  }
  COMPRESSED near { ENFORCE(bits != 16); count =:= lsb(bits, 0) [bits]; }
  COMPRESSED whole { ENFORCE(bits == 16); count =:= irregular(16) [16]; }
}

counters
{
  UNCOMPRESSED
  {
    sent [16];
    received [16];
  }
  COMPRESSED near
  {
    kind =:= '0' [1];
    sent =:= swapped(4) [4];
    received =:= swapped(3) [3];
  }
  COMPRESSED full
  {
    kind =:= '1' [1];
    sent =:= swapped(16) [16];
    received =:= swapped(16) [16];
  }
}
