// The header of a CoAP message (RFC 7252) with a token of up to 8 octets and options of up to 8, as a server sends it that is asked and observed (RFC 7641).
// The packer is given nothing besides the header: it tries out how many octets of options there are. docs/TUNING.md leads from a first version to the one in
// profiles/.

coap
{
  UNCOMPRESSED
  {
    version =:= uncompressed_value(2, 1) [2];
    type [2];
    token_length [4];
    code [8];
    message_id [16];
    token [8 * token_length.UVALUE];
    options [VARIABLE];
    ENFORCE(token_length.UVALUE <= 8);
  }

  COMPRESSED full // all
  {
    type =:= irregular(2) [2];
    token_length =:= irregular(4) [4];
    code =:= irregular(8) [8];
    message_id =:= irregular(16) [16];
    token =:= irregular(token.ULENGTH) [token.ULENGTH];
    octets =:= irregular(4) [4];
    options =:= irregular(8 * octets.UVALUE) [VARIABLE];
  }
}
