// The header of a CoAP message (RFC 7252) with a token of up to 8 octets and options of up to 8, as a server sends it that is asked and observed (RFC 7641).
// The packer is given nothing besides the header: it tries out how many octets of options there are. docs/TUNING.md leads from a first version to the one in
// profiles/.

OBSERVE = 0x62; // the head of an Observe option of two octets
ACKNOWLEDGEMENT = 2; // a type; those of notifications are 0 and 1
CHANGED = 0x44; // two codes
CONTENT = 0x45;

coap
{
  UNCOMPRESSED
  {
    version =:= uncompressed_value(2, 1) [2];
    type [2];
    token_length [4];
    code [8];
    message_id [16];
    token [8 * token_length.UVALUE];
    observe_head [0, 8];
    observe [2 * observe_head.ULENGTH];
    options [VARIABLE];
    ENFORCE(token_length.UVALUE <= 8);
  }
  CONTROL
  {
    // Of the last notification: the number of its message, its token, its Observe option and its other options.
    own_id [16];
    watch_token [16];
    watched [16];
    watch_options [32];
    // Of the last answer: its number and its token, which are the client's.
    asked_id [16];
    asked_token [16];
    // A control field that stands in such a condition is not asked of the caller.
    ENFORCE(own_id.UVALUE == own_id.UVALUE && watch_token.UVALUE == watch_token.UVALUE && watched.UVALUE == watched.UVALUE);
    ENFORCE(watch_options.UVALUE == watch_options.UVALUE && asked_id.UVALUE == asked_id.UVALUE && asked_token.UVALUE == asked_token.UVALUE);
  }
  INITIAL
  {
    own_id =:= uncompressed_value(16, 0);
    watch_token =:= uncompressed_value(16, 0);
    watched =:= uncompressed_value(16, 0);
    watch_options =:= uncompressed_value(32, 0);
    asked_id =:= uncompressed_value(16, 0);
    asked_token =:= uncompressed_value(16, 0);
  }
  DEFAULT
  {
    token_length =:= uncompressed_value(4, 2) [0];
    observe_head =:= uncompressed_value(0, 0) [0];
    own_id =:= static [0];
    watch_token =:= static [0];
    watched =:= static [0];
    watch_options =:= static [0];
    asked_id =:= static [0];
    asked_token =:= static [0];
    crc8 =:= crc(8, 0xe0, 0xff, THIS.UVALUE, THIS.ULENGTH) [8];
  }

  COMPRESSED notify // the next notification
  {
    discriminator =:= '0' [1];
    crc8;
    unconfirmed =:= irregular(1) [1];
    ENFORCE(type.UVALUE == unconfirmed.UVALUE);
    code =:= uncompressed_value(8, CONTENT) [0];
    own_id =:= lsb(4, 0) [4];
    ENFORCE(message_id.UVALUE == own_id.UVALUE);
    ENFORCE(token.UVALUE == watch_token.UVALUE);
    observe_head =:= uncompressed_value(8, OBSERVE) [0];
    watched =:= lsb(4, 0) [4];
    ENFORCE(observe.UVALUE == watched.UVALUE);
    ENFORCE(options.ULENGTH == 32 && options.UVALUE == watch_options.UVALUE);
  }
  COMPRESSED answer // the next answer
  {
    discriminator =:= '10' [2];
    crc8;
    type =:= uncompressed_value(2, ACKNOWLEDGEMENT) [0];
    content =:= irregular(1) [1];
    ENFORCE(content.UVALUE == code.UVALUE - CHANGED && code.UVALUE == CHANGED + content.UVALUE);
    asked_id =:= lsb(4, 0) [4];
    ENFORCE(message_id.UVALUE == asked_id.UVALUE);
    asked_token =:= lsb(5, 0) [5];
    ENFORCE(token.UVALUE == asked_token.UVALUE);
    observe =:= uncompressed_value(0, 0) [0];
    octets =:= irregular(4) [4];
    options =:= irregular(8 * octets.UVALUE) [VARIABLE];
  }
  COMPRESSED full_notify // all of a notification
  {
    discriminator =:= '110' [3];
    crc8;
    unconfirmed =:= irregular(1) [1];
    ENFORCE(type.UVALUE == unconfirmed.UVALUE);
    code =:= uncompressed_value(8, CONTENT) [0];
    own_id =:= irregular(16) [16];
    ENFORCE(message_id.UVALUE == own_id.UVALUE);
    watch_token =:= irregular(16) [16];
    ENFORCE(token.UVALUE == watch_token.UVALUE);
    observe_head =:= uncompressed_value(8, OBSERVE) [0];
    watched =:= irregular(16) [16];
    ENFORCE(observe.UVALUE == watched.UVALUE);
    watch_options =:= irregular(32) [32];
    ENFORCE(options.ULENGTH == 32 && options.UVALUE == watch_options.UVALUE);
  }
  COMPRESSED full_answer // all of an answer
  {
    discriminator =:= '1110' [4];
    crc8;
    type =:= uncompressed_value(2, ACKNOWLEDGEMENT) [0];
    code =:= irregular(8) [8];
    asked_id =:= irregular(16) [16];
    ENFORCE(message_id.UVALUE == asked_id.UVALUE);
    asked_token =:= irregular(16) [16];
    ENFORCE(token.UVALUE == asked_token.UVALUE);
    observe =:= uncompressed_value(0, 0) [0];
    octets =:= irregular(4) [4];
    options =:= irregular(8 * octets.UVALUE) [VARIABLE];
  }
  COMPRESSED full // any other message
  {
    discriminator =:= '1111' [4];
    crc8;
    type =:= irregular(2) [2];
    token_length =:= irregular(4) [4];
    code =:= irregular(8) [8];
    message_id =:= irregular(16) [16];
    token =:= irregular(token.ULENGTH) [token.ULENGTH];
    plain =:= irregular(1) [1]; // there is no such option
    observe_head =:= uncompressed_value(8 * (1 - plain.UVALUE), OBSERVE * (1 - plain.UVALUE)) [0];
    observe =:= irregular(16 * (1 - plain.UVALUE)) [VARIABLE];
    octets =:= irregular(4) [4];
    options =:= irregular(8 * octets.UVALUE) [VARIABLE];
  }
}
