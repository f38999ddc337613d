// Six fields of which each is sent or not, with a flag before it, and one that a flow keeps. An item has at most 65,536 candidates. A flag in the format, and
// a method that goes by it, count four times for each field: twice for the flag, twice for the method's formats, which count even where the argument is
// constant. Three things keep it low. The flag stands in the method, so it counts twice. In a format where nothing changes, `static` stands outside, and
// counts once. In the format that sends all, a method of one format stands, and counts once; its field has the name of the other's, so each finds what the
// other left. So `some` has 64 candidates, `none` and `all` have one each. In each format that sends a field it goes by one of these methods: by another way
// `flagged` would find an old value.
//
// Headers and their packets, one after the other from an empty context on:
// 96:0a0000010040800000ff0000 -> 98:c280000040102000003fc00000
// 96:0a000001003f800000ff0000 -> 16:93f0
// 96:0a000001003f800000ff0000 -> 1:00
// 96:0a000001003f800101000000 -> 32:84060200

flagged(width)
{
  UNCOMPRESSED { field [width]; }
  COMPRESSED same { flag =:= '0' [1]; field =:= static [0]; }
  COMPRESSED sent { flag =:= '1' [1]; field =:= irregular(width) [width]; }
}

whole(width)
{
  UNCOMPRESSED { field [width]; }
  COMPRESSED { field =:= irregular(width) [width]; }
}

flags
{
  UNCOMPRESSED
  {
    source [32];
    traffic_class [8];
    hop_limit [8];
    kind_of_message [8];
    code [8];
    window [16];
    urgent [16];
  }
  COMPRESSED none
  {
    kind =:= '0' [1];
    source =:= static [0];
    traffic_class =:= static [0];
    hop_limit =:= static [0];
    kind_of_message =:= static [0];
    code =:= static [0];
    window =:= static [0];
    urgent =:= static [0];
  }
  COMPRESSED some
  {
    kind =:= '10' [2];
    source =:= static [0];
    traffic_class =:= flagged(8) [1, 9];
    hop_limit =:= flagged(8) [1, 9];
    kind_of_message =:= flagged(8) [1, 9];
    code =:= flagged(8) [1, 9];
    window =:= flagged(16) [1, 17];
    urgent =:= flagged(16) [1, 17];
  }
  COMPRESSED all
  {
    kind =:= '11' [2];
    source =:= irregular(32) [32];
    traffic_class =:= whole(8) [8];
    hop_limit =:= whole(8) [8];
    kind_of_message =:= whole(8) [8];
    code =:= whole(8) [8];
    window =:= whole(16) [16];
    urgent =:= whole(16) [16];
  }
}
