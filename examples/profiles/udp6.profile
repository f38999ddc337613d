// The headers of IPv6 (40 octets: no extension headers) and UDP (8 octets), in the manner of the UDP profile of RFC 5225. An address is two halves of
// 64 bits. A flow's first header goes as `ir`, with all that the others leave out; then a master sequence number counts the headers, and each format
// sends its low bits and a CRC over the whole header. The packer is given the sequence number. The UDP checksum, which IPv6 demands, goes with each
// header.
//
// A receiver that lost packets goes by an older context, and the CRC has to tell it so (docs/LOSS.md). So it has 8 bits in each format. The sequence
// number is in no header: its low 8 bits are what the CRC's register begins with, so a header that comes back with another number is noticed, too,
// where these bits differ.
//
// Headers and their packets, one after the other from an empty context on:
// 384:600abcde0020114020010db800000000000000000000000120010db8000000000000000000000002c000138c0020beef msn=16:0000
//   -> 392:fd0e20010db800000000000000000000000120010db8000000000000000000000002c000138c00abcde40000200000beef
// 384:600abcde0020114020010db800000000000000000000000120010db8000000000000000000000002c000138c0020cafe msn=16:0001
//   -> 29:0d2e57f0
// 384:600abcde0020114020010db800000000000000000000000120010db8000000000000000000000002c000138c0020caff msn=16:0021
//   -> 33:d098657f80
// 384:600abcde0030114020010db800000000000000000000000120010db8000000000000000000000002c000138c00301111 msn=16:0022
//   -> 48:a29300301111
// 384:600abcde0030113f20010db800000000000000000000000120010db8000000000000000000000002c000138c00301112 msn=16:0023
//   -> 65:fa228c9f8018088900

IP_VERSION = 6;
PROTOCOL_UDP = 17;

// What a format does with a field that changes now and then.
KEPT = 0; // it is the one before
FLAGGED = 1; // a flag says whether it is sent
SENT = 2;

/* Such a field. Each format calls this one method, so each packet leaves the context's entries at the same paths (docs/LOSS.md). parts/flags.profile says why
   the flag stands here. */
changing(how, width)
{
  UNCOMPRESSED { field [width]; }
  COMPRESSED kept { ENFORCE(how == KEPT); field =:= static [0]; }
  COMPRESSED same { ENFORCE(how == FLAGGED); flag =:= '0' [1]; field =:= static [0]; }
  COMPRESSED other { ENFORCE(how == FLAGGED); flag =:= '1' [1]; field =:= irregular(width) [width]; }
  COMPRESSED sent { ENFORCE(how == SENT); field =:= irregular(width) [width]; }
}

udp_ip6
{
  UNCOMPRESSED
  {
    version =:= uncompressed_value(4, IP_VERSION) [4];
    traffic_class [8];
    flow_label [20];
    payload_length [16];
    next_header =:= uncompressed_value(8, PROTOCOL_UDP) [8];
    hop_limit [8];
    source_network [64];
    source_node [64];
    destination_network [64];
    destination_node [64];
    source_port [16];
    destination_port [16];
    udp_length =:= uncompressed_value(16, payload_length.UVALUE) [16];
    udp_checksum [16];
  }
  CONTROL { msn [16]; }
  DEFAULT
  {
    traffic_class =:= changing(KEPT, 8) [0];
    flow_label =:= changing(KEPT, 20) [0];
    payload_length =:= static [0];
    hop_limit =:= changing(KEPT, 8) [0];
    source_network =:= static [0];
    source_node =:= static [0];
    destination_network =:= static [0];
    destination_node =:= static [0];
    source_port =:= static [0];
    destination_port =:= static [0];
    udp_checksum =:= irregular(16) [16];
    crc8 =:= crc(8, 0xe0, msn.UVALUE % 256, THIS.UVALUE, THIS.ULENGTH) [8];
  }

  COMPRESSED pt_0 // nothing changes but what goes on in step
  {
    discriminator =:= '0' [1];
    msn =:= lsb(4, 1) [4];
    crc8;
    udp_checksum;
  }
  COMPRESSED pt_0_far // the same after a longer gap
  {
    discriminator =:= '110' [3];
    msn =:= lsb(6, 1) [6];
    crc8;
    udp_checksum;
  }
  COMPRESSED pt_2_length // another length
  {
    discriminator =:= '10' [2];
    msn =:= lsb(6, 1) [6];
    crc8;
    payload_length =:= irregular(16) [16];
    udp_checksum;
  }
  COMPRESSED co_common // what changes now and then
  {
    discriminator =:= '11111010' [8];
    crc8;
    msn =:= lsb(6, 1) [6];
    traffic_class =:= changing(FLAGGED, 8) [1, 9];
    flow_label =:= changing(FLAGGED, 20) [1, 21];
    hop_limit =:= changing(FLAGGED, 8) [1, 9];
    payload_length =:= irregular(16) [16];
    udp_checksum;
  }
  COMPRESSED ir // all that the other formats need to know
  {
    discriminator =:= '11111101' [8];
    crc8;
    source_network =:= irregular(64) [64];
    source_node =:= irregular(64) [64];
    destination_network =:= irregular(64) [64];
    destination_node =:= irregular(64) [64];
    source_port =:= irregular(16) [16];
    destination_port =:= irregular(16) [16];
    traffic_class =:= changing(SENT, 8) [8];
    flow_label =:= changing(SENT, 20) [20];
    hop_limit =:= changing(SENT, 8) [8];
    padding =:= '0000' [4];
    payload_length =:= irregular(16) [16];
    msn =:= irregular(16) [16];
    udp_checksum;
  }
}
