// The headers of IPv4 (20 octets: no options, no fragments), UDP (8 octets) and RTP (12 octets: no contributing sources, no extension), in
// the manner of the RTP profile of RFC 5225. It is the profile of udp.profile with RTP's fields: the master sequence number is RTP's, and the
// timestamp, in units of its stride, goes on in step with it. The packer is given four values: the sequence number, what the identification
// does, whether there is a UDP checksum, and the stride, which is above 0 (1 where the timestamp has none).
//
// The CRC has 8 bits in each format, as in udp.profile: a receiver that lost packets goes by older values for what is left out, the units of
// the timestamp among them, and nothing but the CRC tells it so (docs/LOSS.md).

IP_VERSION = 4;
IP_WORDS = 5; // the header's length in words of 32 bits
IP_OCTETS = 20;
PROTOCOL_UDP = 17;
RTP_VERSION = 2;
WORDS = 2^16; // as many values as a word of 16 bits has
TIMES = 2^32; // as many values as a timestamp has

// What ip_id_behaviour says of the identification.
SEQUENTIAL = 0;
SWAPPED = 1; // sequential, with its two octets exchanged
RANDOM = 2;
ZERO = 3;

/* A field that is sent where the flag is 1, and is that of the context where it is 0. */
static_or_irreg(flag, width)
{
  UNCOMPRESSED { field [width]; }
  COMPRESSED irreg_enc  { ENFORCE(flag == 1); field =:= irregular(width) [width]; }
  COMPRESSED static_enc { ENFORCE(flag == 0); field =:= static [0]; }
}

/* The identification: by the low bits of its distance from the sequence number, or all of it where it is random. */
ip_id(behaviour, bits, slack, number)
{
  UNCOMPRESSED { id [16]; }
  CONTROL
  {
    counted [16]; // what counts in steps: the identification, its octets exchanged where they are swapped
    distance [16];
    ENFORCE(distance.UVALUE == (counted.UVALUE - number) % WORDS);
    ENFORCE(counted.UVALUE == (distance.UVALUE + number) % WORDS);
  }
  INITIAL { distance =:= uncompressed_value(16, 0); }
  COMPRESSED sequential
  {
    ENFORCE(behaviour == SEQUENTIAL && counted.UVALUE == id.UVALUE);
    distance =:= lsb(bits, slack) [bits];
  }
  COMPRESSED swapped
  {
    ENFORCE(behaviour == SWAPPED);
    ENFORCE(counted.UVALUE == (id.UVALUE % 256) * 256 + id.UVALUE / 256);
    ENFORCE(id.UVALUE == (counted.UVALUE % 256) * 256 + counted.UVALUE / 256);
    distance =:= lsb(bits, slack) [bits];
  }
  COMPRESSED random { ENFORCE(behaviour == RANDOM && counted.UVALUE == id.UVALUE); id =:= irregular(16) [16]; }
  COMPRESSED zero { ENFORCE(behaviour == ZERO && counted.UVALUE == 0); id =:= uncompressed_value(16, 0) [0]; }
}

/* A UDP checksum: sent in a flow that has checksums, else zero. */
udp_sum(used)
{
  UNCOMPRESSED { sum [16]; }
  COMPRESSED present { ENFORCE(used == 1 && sum.UVALUE != 0); sum =:= irregular(16) [16]; }
  COMPRESSED absent  { ENFORCE(used == 0); sum =:= uncompressed_value(16, 0) [0]; }
}

/* A timestamp: by the low bits of the distance of its units from the sequence number, where what is left over is as before; or all of it. */
scaled_timestamp(whole, stride, bits, slack, number)
{
  UNCOMPRESSED { timestamp [32]; }
  CONTROL
  {
    scaled [32];
    residue [32];
    distance [32];
    ENFORCE(scaled.UVALUE == timestamp.UVALUE / stride);
    ENFORCE(residue.UVALUE == timestamp.UVALUE % stride);
    ENFORCE(timestamp.UVALUE == scaled.UVALUE * stride + residue.UVALUE);
    ENFORCE(distance.UVALUE == (scaled.UVALUE - number) % TIMES);
    ENFORCE(scaled.UVALUE == (distance.UVALUE + number) % TIMES);
  }
  COMPRESSED steps { ENFORCE(whole == 0); residue =:= static [0]; distance =:= lsb(bits, slack) [bits]; }
  COMPRESSED full  { ENFORCE(whole == 1); timestamp =:= irregular(32) [32]; }
}

rtp_udp_ip
{
  UNCOMPRESSED
  {
    version =:= uncompressed_value(4, IP_VERSION) [4];
    header_length =:= uncompressed_value(4, IP_WORDS) [4];
    tos [8];
    total_length [16];
    id [16];
    reserved =:= uncompressed_value(1, 0) [1];
    dont_fragment [1];
    more_fragments =:= uncompressed_value(1, 0) [1];
    fragment_offset =:= uncompressed_value(13, 0) [13];
    ttl [8];
    protocol =:= uncompressed_value(8, PROTOCOL_UDP) [8];
    // 65535 minus the sum of the header's other words, where 65536 counts as 1: inferred, never sent.
    ip_checksum =:= uncompressed_value(16, WORDS - 2 - ((IP_VERSION * 2^12 + IP_WORDS * 2^8 + tos.UVALUE + total_length.UVALUE
      + id.UVALUE + dont_fragment.UVALUE * 2^14 + ttl.UVALUE * 2^8 + PROTOCOL_UDP + source.UVALUE / WORDS + (source.UVALUE % WORDS)
      + destination.UVALUE / WORDS + (destination.UVALUE % WORDS) - 1) % (WORDS - 1))) [16];
    source [32];
    destination [32];
    source_port [16];
    destination_port [16];
    udp_length =:= uncompressed_value(16, total_length.UVALUE - IP_OCTETS) [16];
    udp_checksum [16];
    rtp_version =:= uncompressed_value(2, RTP_VERSION) [2];
    rtp_padding [1];
    rtp_extension =:= uncompressed_value(1, 0) [1];
    csrc_count =:= uncompressed_value(4, 0) [4];
    marker [1];
    payload_type [7];
    sequence_number =:= uncompressed_value(16, msn.UVALUE) [16];
    timestamp [32];
    ssrc [32];
  }
  CONTROL
  {
    msn [16];
    ip_id_behaviour [2];
    udp_checksum_used [1];
    ts_stride [32];
  }
  DEFAULT
  {
    tos =:= static_or_irreg(0, 8) [0];
    total_length =:= static [0];
    id =:= ip_id(ip_id_behaviour.UVALUE, 0, 0, msn.UVALUE) [0, 16];
    dont_fragment =:= static [0];
    ttl =:= static_or_irreg(0, 8) [0];
    source =:= static [0];
    destination =:= static [0];
    source_port =:= static [0];
    destination_port =:= static [0];
    udp_checksum =:= udp_sum(udp_checksum_used.UVALUE) [0, 16];
    rtp_padding =:= static [0];
    marker =:= uncompressed_value(1, 0) [0];
    payload_type =:= static [0];
    timestamp =:= scaled_timestamp(0, ts_stride.UVALUE, 0, 0, msn.UVALUE) [0];
    ssrc =:= static [0];
    ip_id_behaviour =:= static [0];
    udp_checksum_used =:= static [0];
    ts_stride =:= static [0];
    crc8 =:= crc(8, 0xe0, msn.UVALUE % 256, THIS.UVALUE, THIS.ULENGTH) [8];
  }

  COMPRESSED pt_0 // nothing changes but what goes on in step
  {
    discriminator =:= '0' [1];
    msn =:= lsb(4, 1) [4];
    crc8;
    id;
    udp_checksum;
  }
  COMPRESSED pt_0_far // the same after a longer gap
  {
    discriminator =:= '1000' [4];
    msn =:= lsb(5, 1) [5];
    crc8;
    id;
    udp_checksum;
  }
  COMPRESSED pt_1_seq_id // the identification has gone on by up to 13 more than the headers
  {
    discriminator =:= '1001' [4];
    ENFORCE(ip_id_behaviour.UVALUE <= SWAPPED);
    crc8;
    msn =:= lsb(5, 1) [5];
    id =:= ip_id(ip_id_behaviour.UVALUE, 4, 2, msn.UVALUE) [4];
    udp_checksum;
  }
  COMPRESSED pt_1_ts // the marker, and the timestamp has gone on by other than one unit a header
  {
    discriminator =:= '101' [3];
    marker =:= irregular(1) [1];
    crc8;
    msn =:= lsb(4, 1) [4];
    timestamp =:= scaled_timestamp(0, ts_stride.UVALUE, 5, 8, msn.UVALUE) [5];
    id;
    udp_checksum;
  }
  COMPRESSED pt_2_both // both, further on
  {
    discriminator =:= '110' [3];
    marker =:= irregular(1) [1];
    crc8;
    msn =:= lsb(5, 1) [5];
    timestamp =:= scaled_timestamp(0, ts_stride.UVALUE, 11, 63, msn.UVALUE) [11];
    id =:= ip_id(ip_id_behaviour.UVALUE, 4, 2, msn.UVALUE) [0, 4, 16];
    udp_checksum;
  }
  COMPRESSED pt_2_length // another length as well
  {
    discriminator =:= '1110' [4];
    marker =:= irregular(1) [1];
    crc8;
    msn =:= lsb(5, 1) [5];
    timestamp =:= scaled_timestamp(0, ts_stride.UVALUE, 6, 15, msn.UVALUE) [6];
    id =:= ip_id(ip_id_behaviour.UVALUE, 4, 2, msn.UVALUE) [0, 4, 16];
    total_length =:= lsb(12, 2047) [12];
    udp_checksum;
  }
  COMPRESSED co_common // what changes now and then; the identification and the timestamp in full
  {
    discriminator =:= '11111010' [8];
    marker =:= irregular(1) [1];
    crc8;
    tos_indicator =:= irregular(1) [1];
    ttl_indicator =:= irregular(1) [1];
    dont_fragment =:= irregular(1) [1];
    ip_id_behaviour =:= irregular(2) [2];
    udp_checksum_used =:= irregular(1) [1];
    padding =:= '0' [1];
    msn =:= lsb(8, 1) [8];
    tos =:= static_or_irreg(tos_indicator.CVALUE, 8) [0, 8];
    total_length =:= irregular(16) [16];
    ttl =:= static_or_irreg(ttl_indicator.CVALUE, 8) [0, 8];
    rtp_padding =:= irregular(1) [1];
    payload_type =:= irregular(7) [7];
    timestamp =:= scaled_timestamp(1, ts_stride.UVALUE, 0, 0, msn.UVALUE) [32];
    id =:= ip_id(ip_id_behaviour.UVALUE, 16, 0, msn.UVALUE) [0, 16];
    udp_checksum;
  }
  COMPRESSED ir // all that the other formats need to know
  {
    discriminator =:= '11111101' [8];
    crc8;
    source =:= irregular(32) [32];
    destination =:= irregular(32) [32];
    source_port =:= irregular(16) [16];
    destination_port =:= irregular(16) [16];
    ssrc =:= irregular(32) [32];
    tos =:= static_or_irreg(1, 8) [8];
    total_length =:= irregular(16) [16];
    ttl =:= static_or_irreg(1, 8) [8];
    dont_fragment =:= irregular(1) [1];
    ip_id_behaviour =:= irregular(2) [2];
    udp_checksum_used =:= irregular(1) [1];
    padding =:= '00' [2];
    marker =:= irregular(1) [1];
    rtp_padding =:= irregular(1) [1];
    payload_type =:= irregular(7) [7];
    alignment =:= '0' [1];
    ts_stride =:= irregular(32) [32];
    msn =:= irregular(16) [16];
    timestamp =:= scaled_timestamp(1, ts_stride.UVALUE, 0, 0, msn.UVALUE) [32];
    id =:= ip_id(ip_id_behaviour.UVALUE, 16, 0, msn.UVALUE) [0, 16];
    udp_checksum;
  }
}
