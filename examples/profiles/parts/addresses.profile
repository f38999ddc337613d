// Two addresses of 128 bits (IPv6), each as two halves of 64, since a library method has at most 64 bits on a side. A half that is as before is not
// sent: a flow whose host takes a new address in its network sends the lower half alone. What an address leaves in the context are its halves.
//
// Headers and their packets, one after the other from an empty context on:
// 256:20010db800000000000000000000000120010db8000000000000000000000002 -> 260:c800436e000000000000000000000000720010db80000000000000000000000020
// 256:20010db800000000000000000000000320010db8000000000000000000000002 -> 67:8000000000000000c0
// 256:20010db800000000000000000000000320010db8000000000000000000000002 -> 2:00

address
{
  UNCOMPRESSED
  {
    network [64];
    node [64];
  }
  DEFAULT
  {
    network =:= static [0];
    node =:= static [0];
  }
  COMPRESSED same { kind =:= '0' [1]; }
  COMPRESSED moved { kind =:= '10' [2]; node =:= irregular(64) [64]; }
  COMPRESSED other { kind =:= '11' [2]; network =:= irregular(64) [64]; node =:= irregular(64) [64]; }
}

addresses
{
  UNCOMPRESSED
  {
    source [128];
    destination [128];
  }
  COMPRESSED
  {
    source =:= address [1, 66, 130];
    destination =:= address [1, 66, 130];
  }
}
