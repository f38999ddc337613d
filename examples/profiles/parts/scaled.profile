// A counter that goes on in steps of a stride, as a timestamp of RTP does: what is sent are the low bits of its count of strides. What is left over is
// as before. The packer is given the stride with the header; it is above 0, and goes with the whole counter where it is new.
//
// Headers and their packets, one after the other from an empty context on:
// 32:000000a5 stride=32:000000a0 -> 65:800000500000005280
// 32:00000145 stride=32:000000a0 -> 5:10
// 32:00000146 stride=32:000000a0 -> 65:80000050000000a300

scaled_counter
{
  UNCOMPRESSED { timestamp [32]; }
  CONTROL
  {
    stride [32];
    scaled [32];
    residue [32];
    ENFORCE(scaled.UVALUE == timestamp.UVALUE / stride.UVALUE);
    ENFORCE(residue.UVALUE == timestamp.UVALUE % stride.UVALUE);
    ENFORCE(timestamp.UVALUE == scaled.UVALUE * stride.UVALUE + residue.UVALUE);
  }
  COMPRESSED steps
  {
    kind =:= '0' [1];
    stride =:= static [0];
    residue =:= static [0];
    scaled =:= lsb(4, 1) [4];
  }
  COMPRESSED full
  {
    kind =:= '1' [1];
    stride =:= irregular(32) [32];
    timestamp =:= irregular(32) [32];
  }
}
