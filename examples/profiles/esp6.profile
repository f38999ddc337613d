// The headers of IPv6 (40 octets: no extension headers) and ESP (8 octets: the index and the sequence number), in the manner of the ESP profile of RFC
// 5225. An address is two halves of 64 bits. ESP's sequence number counts the headers of a flow, so the packer is given nothing besides the header. A
// flow's first header goes as `ir`, with all that the others leave out; each format has a CRC over the whole header. It has 8 bits: a receiver that
// lost packets goes by an older context, and nothing but the CRC tells it so (docs/LOSS.md).
//
// Headers and their packets, one after the other from an empty context on:
// 384:600000000058324020010db800000000000000000000000120010db80000000000000000000000020000123400000001
//   -> 392:fdef20010db800000000000000000000000120010db8000000000000000000000002000012340000000100000004000058
// 384:600000000058324020010db800000000000000000000000120010db80000000000000000000000020000123400000002
//   -> 13:14e8
// 384:600000000058324020010db800000000000000000000000120010db80000000000000000000000020000123400000022
//   -> 17:d15280
// 384:600000000068324020010db800000000000000000000000120010db80000000000000000000000020000123400000023
//   -> 32:a34c0068
// 384:610000000068324020010db800000000000000000000000120010db80000000000000000000000020000123400000024
//   -> 56:fa010124400068

IP_VERSION = 6;
PROTOCOL_ESP = 50;

// What a format does with a field that changes now and then.
KEPT = 0; // it is the one before
FLAGGED = 1; // a flag says whether it is sent
SENT = 2;

/* Such a field. Each format calls this one method, so each packet leaves the context's entries at the same paths (docs/LOSS.md). parts/flags.profile says why
   the flag stands here. */
changing(how, width)
{
  UNCOMPRESSED { field [width]; }
  COMPRESSED kept { ENFORCE(how == KEPT); field =:= static [0]; }
  COMPRESSED same { ENFORCE(how == FLAGGED); flag =:= '0' [1]; field =:= static [0]; }
  COMPRESSED other { ENFORCE(how == FLAGGED); flag =:= '1' [1]; field =:= irregular(width) [width]; }
  COMPRESSED sent { ENFORCE(how == SENT); field =:= irregular(width) [width]; }
}

esp_ip6
{
  UNCOMPRESSED
  {
    version =:= uncompressed_value(4, IP_VERSION) [4];
    traffic_class [8];
    flow_label [20];
    payload_length [16];
    next_header =:= uncompressed_value(8, PROTOCOL_ESP) [8];
    hop_limit [8];
    source_network [64];
    source_node [64];
    destination_network [64];
    destination_node [64];
    index [32];
    sequence_number [32];
  }
  DEFAULT
  {
    traffic_class =:= changing(KEPT, 8) [0];
    flow_label =:= changing(KEPT, 20) [0];
    payload_length =:= static [0];
    hop_limit =:= changing(KEPT, 8) [0];
    source_network =:= static [0];
    source_node =:= static [0];
    destination_network =:= static [0];
    destination_node =:= static [0];
    index =:= static [0];
    crc8 =:= crc(8, 0xe0, 0xff, THIS.UVALUE, THIS.ULENGTH) [8];
  }

  COMPRESSED pt_0 // nothing changes but the sequence number, which goes on by up to 14
  {
    discriminator =:= '0' [1];
    sequence_number =:= lsb(4, 1) [4];
    crc8;
  }
  COMPRESSED pt_0_far // the same after a longer gap
  {
    discriminator =:= '110' [3];
    sequence_number =:= lsb(6, 1) [6];
    crc8;
  }
  COMPRESSED pt_2_length // another length
  {
    discriminator =:= '10' [2];
    sequence_number =:= lsb(6, 1) [6];
    crc8;
    payload_length =:= irregular(16) [16];
  }
  COMPRESSED co_common // what changes now and then
  {
    discriminator =:= '11111010' [8];
    crc8;
    sequence_number =:= lsb(13, 1) [13];
    traffic_class =:= changing(FLAGGED, 8) [1, 9];
    flow_label =:= changing(FLAGGED, 20) [1, 21];
    hop_limit =:= changing(FLAGGED, 8) [1, 9];
    payload_length =:= irregular(16) [16];
  }
  COMPRESSED ir // all that the other formats need to know
  {
    discriminator =:= '11111101' [8];
    crc8;
    source_network =:= irregular(64) [64];
    source_node =:= irregular(64) [64];
    destination_network =:= irregular(64) [64];
    destination_node =:= irregular(64) [64];
    index =:= irregular(32) [32];
    sequence_number =:= irregular(32) [32];
    traffic_class =:= changing(SENT, 8) [8];
    flow_label =:= changing(SENT, 20) [20];
    hop_limit =:= changing(SENT, 8) [8];
    padding =:= '0000' [4];
    payload_length =:= irregular(16) [16];
  }
}
