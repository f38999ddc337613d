// The header of a message of MQTT-SN (version 1.2) as a client sends it. What is published and the name of a topic are no part of it, nor is what stands in
// messages of other types than the four that are named. docs/TUNING.md leads from a first version to the one in profiles/.

REGISTER = 0x0a;
PUBLISH = 0x0c;
PUBACK = 0x0d;
DISCONNECT = 0x18;

mqttsn
{
  UNCOMPRESSED
  {
    length [8];
    type [8];
    flags [0, 8];
    topic [0, 16];
    message_id [0, 16];
    last [0, 8, 16]; // a return code, or how long the client sleeps
  }
  DEFAULT
  {
    length =:= irregular(8) [8];
    flags =:= uncompressed_value(0, 0) [0];
    topic =:= uncompressed_value(0, 0) [0];
    message_id =:= uncompressed_value(0, 0) [0];
    last =:= uncompressed_value(0, 0) [0];
  }

  COMPRESSED publish
  {
    discriminator =:= '00' [2];
    length;
    type =:= uncompressed_value(8, PUBLISH) [0];
    flags =:= irregular(8) [8];
    topic =:= irregular(16) [16];
    message_id =:= irregular(16) [16];
  }
  COMPRESSED puback
  {
    discriminator =:= '01' [2];
    length;
    type =:= uncompressed_value(8, PUBACK) [0];
    topic =:= irregular(16) [16];
    message_id =:= irregular(16) [16];
    last =:= irregular(8) [8];
  }
  COMPRESSED register
  {
    discriminator =:= '100' [3];
    length;
    type =:= uncompressed_value(8, REGISTER) [0];
    topic =:= irregular(16) [16];
    message_id =:= irregular(16) [16];
  }
  COMPRESSED disconnect
  {
    discriminator =:= '101' [3];
    length;
    type =:= uncompressed_value(8, DISCONNECT) [0];
    last =:= irregular(16) [16];
  }
  COMPRESSED other
  {
    discriminator =:= '11' [2];
    length;
    type =:= irregular(8) [8];
  }
}
