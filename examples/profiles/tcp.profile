// The headers of IPv4 (20 octets: no options, no fragments) and TCP with its options (RFC 9293): one direction of a connection, in the manner of RFC 6846. The
// packer is given nothing besides the header. docs/TUNING.md leads from a first version to the one in profiles/.

IP_VERSION = 4;
IP_WORDS = 5; // the header's length in words of 32 bits
IP_OCTETS = 20;
PROTOCOL_TCP = 6;
HEADERS = 52; // octets of both headers with the timestamps option alone
WORDS = 2^16; // as many values as a word of 16 bits has
FIXED = 5; // words of a TCP header without options

tcp_ip
{
  UNCOMPRESSED
  {
    version =:= uncompressed_value(4, IP_VERSION) [4];
    header_length =:= uncompressed_value(4, IP_WORDS) [4];
    tos [8];
    total_length [16];
    id [16];
    reserved =:= uncompressed_value(1, 0) [1];
    dont_fragment [1];
    more_fragments =:= uncompressed_value(1, 0) [1];
    fragment_offset =:= uncompressed_value(13, 0) [13];
    ttl [8];
    protocol =:= uncompressed_value(8, PROTOCOL_TCP) [8];
    // 65535 minus the sum of the header's other words, where 65536 counts as 1: inferred, never sent.
    ip_checksum =:= uncompressed_value(16, WORDS - 2 - ((IP_VERSION * 2^12 + IP_WORDS * 2^8 + tos.UVALUE + total_length.UVALUE
      + id.UVALUE + dont_fragment.UVALUE * 2^14 + ttl.UVALUE * 2^8 + PROTOCOL_TCP + source.UVALUE / WORDS + (source.UVALUE % WORDS)
      + destination.UVALUE / WORDS + (destination.UVALUE % WORDS) - 1) % (WORDS - 1))) [16];
    source [32];
    destination [32];
    source_port [16];
    destination_port [16];
    sequence [32];
    acknowledgement [32];
    data_offset [4];
    zero =:= uncompressed_value(4, 0) [4];
    congestion [2];
    urg [1];
    ack [1];
    psh [1];
    rst [1];
    syn [1];
    fin [1];
    window [16];
    tcp_checksum [16];
    urgent [16];
    // The options: up to 10 words, of which word n is there where (data_offset + 11 - n) / 16 is 1. Of the timestamps option these are its first octets with
    // two of padding, the time, and the echo of the other end's.
    option_head [32 * ((data_offset.UVALUE + 10) / 16)];
    time [32 * ((data_offset.UVALUE + 9) / 16)];
    echo [32 * ((data_offset.UVALUE + 8) / 16)];
    words_4_5 [32 * ((data_offset.UVALUE + 7) / 16 + (data_offset.UVALUE + 6) / 16)];
    words_6_7 [32 * ((data_offset.UVALUE + 5) / 16 + (data_offset.UVALUE + 4) / 16)];
    words_8_9 [32 * ((data_offset.UVALUE + 3) / 16 + (data_offset.UVALUE + 2) / 16)];
    word_10 [32 * ((data_offset.UVALUE + 1) / 16)];
    ENFORCE(data_offset.UVALUE >= FIXED);
  }
  CONTROL
  {
    next [32]; // the sequence number after this header's payload; SYN and FIN count as an octet
    ENFORCE(next.UVALUE == (sequence.UVALUE + total_length.UVALUE - IP_OCTETS - 4 * data_offset.UVALUE + syn.UVALUE + fin.UVALUE) % (2^32));
    ENFORCE(sequence.UVALUE == (next.UVALUE - total_length.UVALUE + IP_OCTETS + 4 * data_offset.UVALUE - syn.UVALUE - fin.UVALUE) % (2^32));
  }
  DEFAULT
  {
    tos =:= static [0];
    dont_fragment =:= static [0];
    ttl =:= static [0];
    source =:= static [0];
    destination =:= static [0];
    source_port =:= static [0];
    destination_port =:= static [0];
    data_offset =:= static [0];
    congestion =:= static [0];
    urg =:= static [0];
    ack =:= static [0];
    rst =:= static [0];
    syn =:= static [0];
    fin =:= static [0];
    urgent =:= static [0];
    option_head =:= static [0];
    words_4_5 =:= static [0];
    words_6_7 =:= static [0];
    words_8_9 =:= static [0];
    word_10 =:= static [0];
    tcp_checksum =:= irregular(16) [16];
    crc8 =:= crc(8, 0xe0, 0xff, THIS.UVALUE, THIS.ULENGTH) [8];
  }

  COMPRESSED run // one of a run of full segments: only the sequence number goes on
  {
    discriminator =:= '00' [2];
    total_length =:= static [0];
    id =:= lsb(4, 0) [4];
    next =:= lsb(14, HEADERS - total_length.UVALUE) [14];
    acknowledgement =:= static [0];
    psh =:= irregular(1) [1];
    window =:= static [0];
    tcp_checksum;
    crc8;
    time =:= static [0];
    echo =:= static [0];
  }
  COMPRESSED pure // no payload: an acknowledgement
  {
    discriminator =:= '110' [3];
    total_length =:= uncompressed_value(16, HEADERS) [0];
    id =:= lsb(4, 0) [4];
    next =:= static [0];
    acknowledgement =:= lsb(16, 0) [16];
    psh =:= uncompressed_value(1, 0) [0];
    window =:= lsb(5, 15) [5];
    tcp_checksum;
    crc8;
    time =:= static [0];
    echo =:= static [0];
  }
  COMPRESSED answer // no payload: an acknowledgement of a few octets
  {
    discriminator =:= '01' [2];
    total_length =:= uncompressed_value(16, HEADERS) [0];
    id =:= lsb(4, 0) [4];
    next =:= lsb(7, 0) [7];
    acknowledgement =:= lsb(7, 0) [7];
    psh =:= uncompressed_value(1, 0) [0];
    window =:= static [0];
    tcp_checksum;
    crc8;
    time =:= lsb(9, 0) [9];
    echo =:= lsb(9, 0) [9];
  }
  COMPRESSED small // a payload of up to 203 octets, alone
  {
    discriminator =:= '10' [2];
    length =:= irregular(8) [8];
    ENFORCE(total_length.UVALUE == length.UVALUE);
    id =:= lsb(4, 0) [4];
    next =:= lsb(7, HEADERS - total_length.UVALUE) [7];
    acknowledgement =:= lsb(7, 0) [7];
    psh =:= uncompressed_value(1, 1) [0];
    window =:= static [0];
    tcp_checksum;
    crc8;
    time =:= lsb(9, 0) [9];
    echo =:= lsb(9, 0) [9];
  }
  COMPRESSED co // any later header of the connection, with the timestamps option alone
  {
    discriminator =:= '1110' [4];
    tos =:= irregular(8) [8];
    total_length =:= irregular(16) [16];
    id =:= lsb(4, 0) [4];
    sequence =:= lsb(14, 0) [14];
    acknowledgement =:= lsb(16, 0) [16];
    psh =:= irregular(1) [1];
    window =:= irregular(16) [16];
    tcp_checksum;
    crc8;
    time =:= lsb(11, 0) [11];
    echo =:= lsb(11, 0) [11];
  }
  COMPRESSED ir // all
  {
    discriminator =:= '1111' [4];
    tos =:= irregular(8) [8];
    total_length =:= irregular(16) [16];
    id =:= irregular(16) [16];
    dont_fragment =:= irregular(1) [1];
    ttl =:= irregular(8) [8];
    source =:= irregular(32) [32];
    destination =:= irregular(32) [32];
    source_port =:= irregular(16) [16];
    destination_port =:= irregular(16) [16];
    sequence =:= irregular(32) [32];
    acknowledgement =:= irregular(32) [32];
    data_offset =:= irregular(4) [4];
    congestion =:= irregular(2) [2];
    urg =:= irregular(1) [1];
    ack =:= irregular(1) [1];
    psh =:= irregular(1) [1];
    rst =:= irregular(1) [1];
    syn =:= irregular(1) [1];
    fin =:= irregular(1) [1];
    window =:= irregular(16) [16];
    tcp_checksum =:= irregular(16) [16];
    urgent =:= irregular(16) [16];
    option_head =:= irregular(option_head.ULENGTH) [option_head.ULENGTH];
    time =:= irregular(time.ULENGTH) [time.ULENGTH];
    echo =:= irregular(echo.ULENGTH) [echo.ULENGTH];
    words_4_5 =:= irregular(words_4_5.ULENGTH) [words_4_5.ULENGTH];
    words_6_7 =:= irregular(words_6_7.ULENGTH) [words_6_7.ULENGTH];
    words_8_9 =:= irregular(words_8_9.ULENGTH) [words_8_9.ULENGTH];
    word_10 =:= irregular(word_10.ULENGTH) [word_10.ULENGTH];
  }
}
