// The headers of IPv4 (20 octets: no options, no fragments) and UDP (8 octets), in the manner of the UDP profile of RFC 5225. A flow is
// what its addresses and ports name. Its first header goes as `ir`, with all that the others leave out; then a master sequence number
// counts the headers, and each format sends its low bits and a CRC over the whole header, which says whether what was read is what
// was sent. The packer is given three values: the sequence number, what the identification does, and whether there is a UDP checksum.
//
// A receiver that lost packets goes by an older context (docs/LOSS.md). The bits of the sequence number that are sent reach over 13 headers
// that are lost in a row. All else that is left out the CRC has to guard, so it has 8 bits in each format: one of 3 lets an eighth of the
// wrong readings pass. The sequence number is in no header: its low 8 bits are what the CRC's register begins with, so it is guarded, too.

IP_VERSION = 4;
IP_WORDS = 5; // the header's length in words of 32 bits
IP_OCTETS = 20;
PROTOCOL_UDP = 17;
WORDS = 2^16; // as many values as a word of 16 bits has

// What ip_id_behaviour says of the identification.
SEQUENTIAL = 0;
SWAPPED = 1; // sequential, with its two octets exchanged
RANDOM = 2;
ZERO = 3;

/* A field that is sent where the flag is 1, and is that of the context where it is 0. */
static_or_irreg(flag, width)
{
  UNCOMPRESSED { field [width]; }
  COMPRESSED irreg_enc  { ENFORCE(flag == 1); field =:= irregular(width) [width]; }
  COMPRESSED static_enc { ENFORCE(flag == 0); field =:= static [0]; }
}

/* The identification: by the low bits of its distance from the sequence number, or all of it where it is random. */
ip_id(behaviour, bits, slack, number)
{
  UNCOMPRESSED { id [16]; }
  CONTROL
  {
    counted [16]; // what counts in steps: the identification, its octets exchanged where they are swapped
    distance [16];
    ENFORCE(distance.UVALUE == (counted.UVALUE - number) % WORDS);
    ENFORCE(counted.UVALUE == (distance.UVALUE + number) % WORDS);
  }
  INITIAL { distance =:= uncompressed_value(16, 0); }
  COMPRESSED sequential
  {
    ENFORCE(behaviour == SEQUENTIAL && counted.UVALUE == id.UVALUE);
    distance =:= lsb(bits, slack) [bits];
  }
  COMPRESSED swapped
  {
    ENFORCE(behaviour == SWAPPED);
    ENFORCE(counted.UVALUE == (id.UVALUE % 256) * 256 + id.UVALUE / 256);
    ENFORCE(id.UVALUE == (counted.UVALUE % 256) * 256 + counted.UVALUE / 256);
    distance =:= lsb(bits, slack) [bits];
  }
  COMPRESSED random { ENFORCE(behaviour == RANDOM && counted.UVALUE == id.UVALUE); id =:= irregular(16) [16]; }
  COMPRESSED zero { ENFORCE(behaviour == ZERO && counted.UVALUE == 0); id =:= uncompressed_value(16, 0) [0]; }
}

/* A UDP checksum: sent in a flow that has checksums, else zero. */
udp_sum(used)
{
  UNCOMPRESSED { sum [16]; }
  COMPRESSED present { ENFORCE(used == 1 && sum.UVALUE != 0); sum =:= irregular(16) [16]; }
  COMPRESSED absent  { ENFORCE(used == 0); sum =:= uncompressed_value(16, 0) [0]; }
}

udp_ip
{
  UNCOMPRESSED
  {
    version =:= uncompressed_value(4, IP_VERSION) [4];
    header_length =:= uncompressed_value(4, IP_WORDS) [4];
    tos [8];
    total_length [16];
    id [16];
    reserved =:= uncompressed_value(1, 0) [1];
    dont_fragment [1];
    more_fragments =:= uncompressed_value(1, 0) [1];
    fragment_offset =:= uncompressed_value(13, 0) [13];
    ttl [8];
    protocol =:= uncompressed_value(8, PROTOCOL_UDP) [8];
    // 65535 minus the sum of the header's other words, where 65536 counts as 1: inferred, never sent.
    ip_checksum =:= uncompressed_value(16, WORDS - 2 - ((IP_VERSION * 2^12 + IP_WORDS * 2^8 + tos.UVALUE + total_length.UVALUE
      + id.UVALUE + dont_fragment.UVALUE * 2^14 + ttl.UVALUE * 2^8 + PROTOCOL_UDP + source.UVALUE / WORDS + (source.UVALUE % WORDS)
      + destination.UVALUE / WORDS + (destination.UVALUE % WORDS) - 1) % (WORDS - 1))) [16];
    source [32];
    destination [32];
    source_port [16];
    destination_port [16];
    udp_length =:= uncompressed_value(16, total_length.UVALUE - IP_OCTETS) [16];
    udp_checksum [16];
  }
  CONTROL
  {
    msn [16];
    ip_id_behaviour [2];
    udp_checksum_used [1];
  }
  DEFAULT
  {
    tos =:= static_or_irreg(0, 8) [0];
    total_length =:= static [0];
    id =:= ip_id(ip_id_behaviour.UVALUE, 0, 0, msn.UVALUE) [0, 16];
    dont_fragment =:= static [0];
    ttl =:= static_or_irreg(0, 8) [0];
    source =:= static [0];
    destination =:= static [0];
    source_port =:= static [0];
    destination_port =:= static [0];
    udp_checksum =:= udp_sum(udp_checksum_used.UVALUE) [0, 16];
    ip_id_behaviour =:= static [0];
    udp_checksum_used =:= static [0];
    crc8 =:= crc(8, 0xe0, msn.UVALUE % 256, THIS.UVALUE, THIS.ULENGTH) [8];
  }

  COMPRESSED pt_0 // nothing changes but what goes on in step
  {
    discriminator =:= '0' [1];
    msn =:= lsb(4, 1) [4];
    crc8;
    id;
    udp_checksum;
  }
  COMPRESSED pt_0_far // the same after a longer gap
  {
    discriminator =:= '1110' [4];
    msn =:= lsb(8, 1) [8];
    crc8;
    id;
    udp_checksum;
  }
  COMPRESSED pt_1_seq_id // the identification has gone on by up to 13 more than the headers
  {
    discriminator =:= '110' [3];
    ENFORCE(ip_id_behaviour.UVALUE <= SWAPPED);
    crc8;
    msn =:= lsb(4, 1) [4];
    id =:= ip_id(ip_id_behaviour.UVALUE, 4, 2, msn.UVALUE) [4];
    udp_checksum;
  }
  COMPRESSED pt_2_seq_id // the same by up to 247
  {
    discriminator =:= '11110' [5];
    ENFORCE(ip_id_behaviour.UVALUE <= SWAPPED);
    crc8;
    msn =:= lsb(6, 1) [6];
    id =:= ip_id(ip_id_behaviour.UVALUE, 8, 8, msn.UVALUE) [8];
    udp_checksum;
  }
  COMPRESSED pt_2_length // another length: the next to come often, so its discriminator is short
  {
    discriminator =:= '10' [2];
    crc8;
    msn =:= lsb(4, 1) [4];
    id =:= ip_id(ip_id_behaviour.UVALUE, 4, 2, msn.UVALUE) [0, 4, 16];
    total_length =:= lsb(12, 2047) [12];
    udp_checksum;
  }
  COMPRESSED co_common // what changes now and then; the identification in full
  {
    discriminator =:= '11111010' [8];
    crc8;
    tos_indicator =:= irregular(1) [1];
    ttl_indicator =:= irregular(1) [1];
    dont_fragment =:= irregular(1) [1];
    ip_id_behaviour =:= irregular(2) [2];
    udp_checksum_used =:= irregular(1) [1];
    padding =:= '00' [2];
    msn =:= lsb(8, 1) [8];
    tos =:= static_or_irreg(tos_indicator.CVALUE, 8) [0, 8];
    total_length =:= irregular(16) [16];
    ttl =:= static_or_irreg(ttl_indicator.CVALUE, 8) [0, 8];
    id =:= ip_id(ip_id_behaviour.UVALUE, 16, 0, msn.UVALUE) [0, 16];
    udp_checksum;
  }
  COMPRESSED ir // all that the other formats need to know
  {
    discriminator =:= '11111101' [8];
    crc8;
    source =:= irregular(32) [32];
    destination =:= irregular(32) [32];
    source_port =:= irregular(16) [16];
    destination_port =:= irregular(16) [16];
    tos =:= static_or_irreg(1, 8) [8];
    total_length =:= irregular(16) [16];
    ttl =:= static_or_irreg(1, 8) [8];
    dont_fragment =:= irregular(1) [1];
    ip_id_behaviour =:= irregular(2) [2];
    udp_checksum_used =:= irregular(1) [1];
    padding =:= '0000' [4];
    msn =:= irregular(16) [16];
    id =:= ip_id(ip_id_behaviour.UVALUE, 16, 0, msn.UVALUE) [0, 16];
    udp_checksum;
  }
}
