// The header of a data frame of IEEE 802.15.4 with a datagram of IPv6 and UDP in it, compressed as RFC 6282 says: short addresses in one PAN, IPHC whose
// source address is left out or has 16 bits, and NHC of UDP. The octets of each field of the frame stand with the low one first; none of them is computed
// with, so they are taken as they stand. The packets are meant to survive losses (`--robust`). docs/TUNING.md leads from a first version to the one in
// profiles/.

sixlowpan
{
  UNCOMPRESSED
  {
    // The frame control: its low octet, and its high one.
    control_zero =:= uncompressed_value(1, 0) [1];
    one_pan =:= uncompressed_value(1, 1) [1];
    acknowledged [1];
    pending [1];
    security =:= uncompressed_value(1, 0) [1];
    type =:= uncompressed_value(3, 1) [3];
    control_high =:= uncompressed_value(8, 0x88) [8];
    sequence [8];
    pan [16];
    destination [16];
    source [16];
    // IPHC.
    dispatch =:= uncompressed_value(6, 0b011111) [6]; // no traffic class, no flow label, and NHC follows
    hop_kind [2]; // 0: the hop limit is there
    source_context =:= uncompressed_value(2, 0) [2];
    source_kind [2]; // 2: 16 bits of the source are there; 3: none
    destination_kind =:= uncompressed_value(4, 3) [4];
    hops [8 * ((3 - hop_kind.UVALUE) / 3)];
    origin [16 * (3 - source_kind.UVALUE)];
    ENFORCE(source_kind.UVALUE >= 2);
    // NHC of UDP: two flags say how long the ports are.
    udp =:= uncompressed_value(6, 0b111100) [6];
    from_near [1];
    to_near [1];
    from_port [16 * (1 - from_near.UVALUE) + from_near.UVALUE * (8 - 4 * to_near.UVALUE)];
    to_port [16 * (1 - to_near.UVALUE) + to_near.UVALUE * (8 - 4 * from_near.UVALUE)];
    checksum [16];
  }

  COMPRESSED full // all
  {
    acknowledged =:= irregular(1) [1];
    pending =:= irregular(1) [1];
    sequence =:= irregular(8) [8];
    pan =:= irregular(16) [16];
    destination =:= irregular(16) [16];
    source =:= irregular(16) [16];
    hop_kind =:= irregular(2) [2];
    source_kind =:= irregular(2) [2];
    from_near =:= irregular(1) [1];
    to_near =:= irregular(1) [1];
    hops =:= irregular(hops.ULENGTH) [hops.ULENGTH];
    origin =:= irregular(origin.ULENGTH) [origin.ULENGTH];
    from_port =:= irregular(from_port.ULENGTH) [from_port.ULENGTH];
    to_port =:= irregular(to_port.ULENGTH) [to_port.ULENGTH];
    checksum =:= irregular(16) [16];
  }
}
