// The header of a frame as a LoRaWAN device sends it up (9 octets and up to 15 of options): type, address of the device, flags, how many octets of
// options there are, a frame counter, the options, the port. The device sends the lower octet of the counter first. What counts is a control field, which
// the conditions join to the two octets, once to write and once to read. Options are two chunks of at most 8 octets. For up to 15 octets there is no need
// of a minimum: octets / 8 is 0 below 8 and else 1, so the second chunk has (octets / 8) * (octets % 8) octets. The packer is given nothing besides the
// header. A flow's first header goes as `full`.
//
// Headers and their packets, one after the other from an empty context on:
// 72:40da1b012680fe0001 -> 77:ef3686c049803f940080
// 72:40da1b012680ff0001 -> 8:7a
// 72:40da1b012680000101 -> 8:06
// 88:80da1b0126a20101030702 -> 51:80d694044060e0
// 88:80da1b0126a21001030702 -> 8:04
// 152:40da1b01268a50010307060011223344556601 -> 115:a83d50034060e0c0022446688aacc0

KEPT = 0;
SENT = 1;

/* Options of so many octets: as they were before, or as they are sent. Each format calls this one method, so each frame leaves the context's entries at the
   same paths (docs/LOSS.md). */
options_of(how, octets)
{
  UNCOMPRESSED
  {
    first [8 * (octets - (octets / 8) * (octets % 8))];
    second [8 * ((octets / 8) * (octets % 8))];
  }
  COMPRESSED kept
  {
    ENFORCE(how == KEPT);
    first =:= static [0];
    second =:= static [0];
  }
  COMPRESSED sent
  {
    ENFORCE(how == SENT);
    first =:= irregular(first.ULENGTH) [first.ULENGTH];
    second =:= irregular(second.ULENGTH) [second.ULENGTH];
  }
}

frame_up
{
  UNCOMPRESSED
  {
    type [3];
    reserved =:= uncompressed_value(3, 0) [3];
    major =:= uncompressed_value(2, 0) [2];
    address [32];
    flags [4];
    options_length [4];
    count_low [8];
    count_high [8];
    options [VARIABLE];
    port [8];
  }
  CONTROL
  {
    count [16];
    ENFORCE(count.UVALUE == count_high.UVALUE * 256 + count_low.UVALUE);
    ENFORCE(count_high.UVALUE == count.UVALUE / 256 && count_low.UVALUE == count.UVALUE % 256);
  }
  DEFAULT
  {
    type =:= static [0];
    address =:= static [0];
    flags =:= static [0];
    options_length =:= static [0];
    port =:= static [0];
    options =:= options_of(SENT, options_length.UVALUE) [VARIABLE];
    crc3 =:= crc(3, 0x06, 0x07, THIS.UVALUE, THIS.ULENGTH) [3];
    crc7 =:= crc(7, 0x79, 0x7f, THIS.UVALUE, THIS.ULENGTH) [7];
    crc8 =:= crc(8, 0xe0, 0xff, THIS.UVALUE, THIS.ULENGTH) [8];
  }

  COMPRESSED near // nothing changes but the counter, which goes on by up to 15
  {
    discriminator =:= '0' [1];
    count =:= lsb(4, 0) [4];
    crc3;
    options =:= options_of(KEPT, options_length.UVALUE) [0];
  }
  COMPRESSED changed // the same device, with another type, other flags, another port or other options
  {
    discriminator =:= '10' [2];
    count =:= lsb(7, 0) [7];
    crc7;
    type =:= irregular(3) [3];
    flags =:= irregular(4) [4];
    port =:= irregular(8) [8];
    options_length =:= irregular(4) [4];
    options;
  }
  COMPRESSED full // all that the other formats need to know
  {
    discriminator =:= '11' [2];
    crc8;
    address =:= irregular(32) [32];
    count =:= irregular(16) [16];
    type =:= irregular(3) [3];
    flags =:= irregular(4) [4];
    port =:= irregular(8) [8];
    options_length =:= irregular(4) [4];
    options;
  }
}
