// The header of a message of MQTT-SN (version 1.2) as a client sends it. What is published and the name of a topic are no part of it, nor is what stands in
// messages of other types than the four that are named. docs/TUNING.md leads from a first version to the one in profiles/.

REGISTER = 0x0a;
PUBLISH = 0x0c;
PUBACK = 0x0d;
DISCONNECT = 0x18;

// What a message has for a number.
NONE = 0;
ZERO = 1; // a publication of quality 0
OWN = 2; // the client's own; of quality 2 it is one more
HEARD = 5; // the gateway's, which is acknowledged

/* The number of a message. The client's own numbers and the gateway's count on by themselves: each format keeps both. */
number(kind, bits)
{
  UNCOMPRESSED { id [0, 16]; }
  CONTROL { own [16]; heard [16]; }
  INITIAL { own =:= uncompressed_value(16, 0); heard =:= uncompressed_value(16, 0); }
  DEFAULT { own =:= static [0]; heard =:= static [0]; }
  COMPRESSED none { ENFORCE(kind == NONE); id =:= uncompressed_value(0, 0) [0]; }
  COMPRESSED zero { ENFORCE(kind == ZERO); id =:= uncompressed_value(16, 0) [0]; }
  COMPRESSED heard_on
  {
    ENFORCE(kind == HEARD);
    heard =:= lsb(bits, 0) [bits];
    id =:= uncompressed_value(16, heard.UVALUE) [0];
    ENFORCE(heard.UVALUE == id.UVALUE);
  }
  COMPRESSED own_on
  {
    ENFORCE(kind != NONE && kind != ZERO && kind != HEARD);
    own =:= lsb(bits, 0) [bits];
    id =:= uncompressed_value(16, own.UVALUE) [0];
    ENFORCE(own.UVALUE == id.UVALUE);
  }
}

mqttsn
{
  UNCOMPRESSED
  {
    length [8];
    type [8];
    flags [0, 8];
    topic [0, 16];
    message_id [VARIABLE];
    last [0, 8, 16]; // a return code, or how long the client sleeps
  }
  CONTROL
  {
    // Of the last topic with each remainder by 3: the topic, the length and the flags of its last message. And the topic that was acknowledged last.
    entry_0 [32];
    entry_1 [32];
    entry_2 [32];
    acked [16];
    // A control field that stands in such a condition is not asked of the caller.
    ENFORCE(entry_0.UVALUE == entry_0.UVALUE && entry_1.UVALUE == entry_1.UVALUE && entry_2.UVALUE == entry_2.UVALUE && acked.UVALUE == acked.UVALUE);
  }
  INITIAL
  {
    entry_0 =:= uncompressed_value(32, 0);
    entry_1 =:= uncompressed_value(32, 0);
    entry_2 =:= uncompressed_value(32, 0);
    acked =:= uncompressed_value(16, 0);
  }
  DEFAULT
  {
    length =:= irregular(8) [8];
    flags =:= uncompressed_value(0, 0) [0];
    topic =:= uncompressed_value(0, 0) [0];
    message_id =:= number(NONE, 0) [0];
    last =:= uncompressed_value(0, 0) [0];
    entry_0 =:= static [0];
    entry_1 =:= static [0];
    entry_2 =:= static [0];
    acked =:= static [0];
    crc8 =:= crc(8, 0xe0, 0xff, THIS.UVALUE, THIS.ULENGTH) [8];
  }

  COMPRESSED known_0 // what the table has
  {
    discriminator =:= '00' [2];
    crc8;
    type =:= uncompressed_value(8, PUBLISH) [0];
    ENFORCE(topic.UVALUE % 3 == 0);
    topic =:= uncompressed_value(16, entry_0.UVALUE / 2^16) [0];
    length =:= uncompressed_value(8, (entry_0.UVALUE / 2^8) % (2^8)) [0];
    flags =:= uncompressed_value(8, entry_0.UVALUE % (2^8)) [0];
    message_id =:= number(ZERO + ((flags.UVALUE / 32) % 4), 4) [0, 4];
  }
  COMPRESSED known_1 // what the table has
  {
    discriminator =:= '01' [2];
    crc8;
    type =:= uncompressed_value(8, PUBLISH) [0];
    ENFORCE(topic.UVALUE % 3 == 1);
    topic =:= uncompressed_value(16, entry_1.UVALUE / 2^16) [0];
    length =:= uncompressed_value(8, (entry_1.UVALUE / 2^8) % (2^8)) [0];
    flags =:= uncompressed_value(8, entry_1.UVALUE % (2^8)) [0];
    message_id =:= number(ZERO + ((flags.UVALUE / 32) % 4), 4) [0, 4];
  }
  COMPRESSED known_2 // what the table has
  {
    discriminator =:= '10' [2];
    crc8;
    type =:= uncompressed_value(8, PUBLISH) [0];
    ENFORCE(topic.UVALUE % 3 == 2);
    topic =:= uncompressed_value(16, entry_2.UVALUE / 2^16) [0];
    length =:= uncompressed_value(8, (entry_2.UVALUE / 2^8) % (2^8)) [0];
    flags =:= uncompressed_value(8, entry_2.UVALUE % (2^8)) [0];
    message_id =:= number(ZERO + ((flags.UVALUE / 32) % 4), 4) [0, 4];
  }
  COMPRESSED puback
  {
    discriminator =:= '110' [3];
    crc8;
    length =:= uncompressed_value(8, 7) [0];
    type =:= uncompressed_value(8, PUBACK) [0];
    topic =:= uncompressed_value(16, acked.UVALUE) [0];
    message_id =:= number(HEARD, 4) [4];
    last =:= irregular(8) [8];
  }
  COMPRESSED learn_0 // a new one for the table
  {
    discriminator =:= '11100' [5];
    crc8;
    type =:= uncompressed_value(8, PUBLISH) [0];
    ENFORCE(topic.UVALUE % 3 == 0);
    length;
    flags =:= irregular(8) [8];
    topic =:= irregular(16) [16];
    message_id =:= number(ZERO + ((flags.UVALUE / 32) % 4), 16) [0, 16];
    entry_0 =:= uncompressed_value(32, topic.UVALUE * 2^16 + length.UVALUE * 2^8 + flags.UVALUE) [0];
  }
  COMPRESSED learn_1 // a new one for the table
  {
    discriminator =:= '11101' [5];
    crc8;
    type =:= uncompressed_value(8, PUBLISH) [0];
    ENFORCE(topic.UVALUE % 3 == 1);
    length;
    flags =:= irregular(8) [8];
    topic =:= irregular(16) [16];
    message_id =:= number(ZERO + ((flags.UVALUE / 32) % 4), 16) [0, 16];
    entry_1 =:= uncompressed_value(32, topic.UVALUE * 2^16 + length.UVALUE * 2^8 + flags.UVALUE) [0];
  }
  COMPRESSED learn_2 // a new one for the table
  {
    discriminator =:= '111100' [6];
    crc8;
    type =:= uncompressed_value(8, PUBLISH) [0];
    ENFORCE(topic.UVALUE % 3 == 2);
    length;
    flags =:= irregular(8) [8];
    topic =:= irregular(16) [16];
    message_id =:= number(ZERO + ((flags.UVALUE / 32) % 4), 16) [0, 16];
    entry_2 =:= uncompressed_value(32, topic.UVALUE * 2^16 + length.UVALUE * 2^8 + flags.UVALUE) [0];
  }
  COMPRESSED register
  {
    discriminator =:= '1111101' [7];
    crc8;
    length;
    type =:= uncompressed_value(8, REGISTER) [0];
    topic =:= irregular(16) [16];
    message_id =:= number(OWN, 16) [16];
  }
  COMPRESSED disconnect
  {
    discriminator =:= '111101' [6];
    crc8;
    length =:= uncompressed_value(8, 4) [0];
    type =:= uncompressed_value(8, DISCONNECT) [0];
    last =:= irregular(16) [16];
  }
  COMPRESSED puback_far
  {
    discriminator =:= '111111' [6];
    crc8;
    length =:= uncompressed_value(8, 7) [0];
    type =:= uncompressed_value(8, PUBACK) [0];
    topic =:= irregular(16) [16];
    acked =:= uncompressed_value(16, topic.UVALUE) [0];
    message_id =:= number(HEARD, 16) [16];
    last =:= irregular(8) [8];
  }
  COMPRESSED other
  {
    discriminator =:= '1111100' [7];
    crc8;
    length;
    type =:= irregular(8) [8];
  }
}
