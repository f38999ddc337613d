"""The library methods, as an editor shows them: their parameters, what they mean, and the lengths of both sides (docs/NOTATION.md)."""
import collections

# Each with its parameters, what it does, the bits of the uncompressed and of the compressed side, and the relation of both.
Library = collections.namedtuple("Library", "parameters does uncompressed compressed relation")

METHODS = {
    "uncompressed_value": Library(
        ("len", "val"), "The field has a number that the profile gives. Nothing is sent.", "len", "0",
        "The uncompressed side has len bits and the number val; the compressed side is empty."),
    "compressed_value": Library(
        ("len", "val"), "A number that the profile gives is sent, and is in no header.", "0", "len",
        "The uncompressed side is empty; the compressed side has len bits and the number val."),
    "irregular": Library(("len",), "All bits of the field are sent as they are.", "len", "len", "Both sides have len bits and are equal."),
    "static": Library(
        (), "The field is what the context holds for it. Nothing is sent.", "as many as the reference", "0",
        "The uncompressed side equals the reference; the compressed side is empty."),
    "lsb": Library(
        ("k", "offset"), "The last k bits are sent of a value near the one that the context holds, from offset below it on.", "as many as the reference", "k",
        "The uncompressed side is (reference - offset + j) modulo 2^n for some j from 0 to 2^k - 1, n the bits of the reference, and k at most n. "
        "The compressed side is its last k bits."),
    "crc": Library(
        ("bits", "poly", "init", "data", "length"), "A checksum of the data is sent: by a polynomial, from a register to begin with.", "0", "bits",
        "The uncompressed side is empty; the compressed side is the register of 1 to 64 bits after the data, which has that length and is whole octets. "
        "The data is an attribute, as THIS.UVALUE."),
}


def signature(name):
    """A library method with its parameters."""
    parameters = METHODS[name].parameters
    return "%s(%s)" % (name, ", ".join(parameters)) if parameters else name


def told(name):
    """What is shown of a library method, in Markdown."""
    it = METHODS[name]
    sides = "| side | bits |\n|---|---|\n| uncompressed | %s |\n| compressed | %s |" % (it.uncompressed, it.compressed)
    return "```rohcfn\n%s\n```\n%s\n\n%s\n\n%s" % (signature(name), it.does, sides, it.relation)
