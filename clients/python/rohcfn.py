"""ROHC-FN profiles at work, by the library rohcfn_c. Bits are a pair of a count and octets, as `(18, b"\\x96\\xaf\\x00")`."""
import ctypes
import os
import pathlib

_OCTETS, _SIZE, _OUT = ctypes.c_char_p, ctypes.c_size_t, ctypes.c_void_p


class _Handle(ctypes.Structure):
    _fields_ = [("at", ctypes.c_void_p)]


class _Counts(ctypes.Structure):
    _fields_ = [("header_bits", _SIZE), ("asked_octets", _SIZE), ("taken_bits", _SIZE)]


_HANDLE, _COUNT = ctypes.POINTER(_Handle), ctypes.POINTER(_SIZE)
_CALLS = {
    "open": [_OCTETS, _SIZE] * 3 + [_SIZE, _HANDLE, _OUT, _SIZE, _COUNT],
    "pack": [_HANDLE, _SIZE, _OCTETS, _SIZE, _SIZE, _OCTETS, _SIZE, _OUT, _SIZE, _COUNT],
    "unpack": [_HANDLE, _SIZE, _OCTETS, _SIZE, _SIZE, _OUT, _SIZE, _OUT, _SIZE, ctypes.POINTER(_Counts)],
    "reset": [_HANDLE, _SIZE],
    "robust": [_HANDLE, _SIZE, ctypes.c_uint8],
    "contexts": [_HANDLE, _SIZE, _COUNT],
    "most": [_HANDLE, _COUNT, _COUNT],
    "asked": [_HANDLE, _SIZE, _OUT, _SIZE, _COUNT, _COUNT],
    "why": [_HANDLE, _OUT, _SIZE, _COUNT],
    "close": [_HANDLE],
}


def _load():
    """The shared library, with the types of its calls: that which the variable ROHCFN_LIBRARY names, or librohcfn_c.so beside this file."""
    beside = pathlib.Path(__file__).with_name("librohcfn_c.so")
    library = ctypes.CDLL(os.environ.get("ROHCFN_LIBRARY", str(beside)))
    for name, types in _CALLS.items():
        getattr(library, "rohcfn_" + name).argtypes = types
    library.rohcfn_close.restype = None
    return library


_library = _load()
_LINE = 4096


class Fault(Exception):
    """What a call refused. `line` says why, as the program prints it, where the profile, its certificate, an item or a packet is at fault."""

    def __init__(self, line=""):
        super().__init__(line or self.__doc__)
        self.line = line


class NoMemory(Fault):
    """Memory ran out."""


class Closed(Fault):
    """The session is closed."""


class NoRoom(Fault):
    """A buffer is too short."""


class Refused(Fault):
    """The profile or its certificate is refused."""


class BadBits(Fault):
    """Octets and their count of bits don't fit each other."""


class HeaderLength(Fault):
    """The header is above 4,096 bits."""


class Asked(Fault):
    """The values are not those of the asked fields."""


class NoFormat(Fault):
    """No format has the item."""


class Truncated(Fault):
    """The bits ran out."""


class RefusedPacket(Fault):
    """No packet begins these bits."""


class NoSuch(Fault):
    """There is no such flow or count of flows."""


class NoReach(Fault):
    """No format serves in all contexts that a receiver may hold."""


class Contexts(Fault):
    """A receiver might hold too many contexts."""


FAULTS = [
    None,
    NoMemory,
    Closed,
    NoRoom,
    Refused,
    BadBits,
    HeaderLength,
    Asked,
    NoFormat,
    Truncated,
    RefusedPacket,
    NoSuch,
    NoReach,
    Contexts,
]


def _filled(bits):
    """How many octets so many bits fill."""
    return (bits + 7) // 8


class Session:
    """Flows of a profile, each with both of its ends. A `with` block closes it. Any thread may use it, one at a time."""

    def __init__(self, top, profile, certificate=b"", flows=16):
        """Opens a session by the octets of a profile whose top method has this name, and by its certificate; with no octets for that it is made."""
        self._handle = _Handle()
        line, said = ctypes.create_string_buffer(_LINE), _SIZE()
        arguments = [top, len(top), profile, len(profile), certificate, len(certificate)]
        code = _library.rohcfn_open(*arguments, flows, self._handle, line, _LINE, said)
        if code:
            raise FAULTS[code](line.raw[: min(said.value, _LINE)].decode())
        self._asked = list(self._asked_fields())
        header, packed = self.most()
        self._header_room = ctypes.create_string_buffer(_filled(header) + 1)
        self._packed_room = ctypes.create_string_buffer(_filled(packed) + 1)
        self._asked_room = ctypes.create_string_buffer(sum(_filled(bits) for _, bits in self._asked) + 1)

    def _call(self, name, *arguments):
        """Calls the library, and raises what it refuses."""
        code = getattr(_library, "rohcfn_" + name)(self._handle, *arguments)
        if code:
            raise FAULTS[code](self.why() if name in ("pack", "unpack") and code != 2 else "")

    def _asked_fields(self):
        """The name of each asked field, and how many bits its values have."""
        name, said, bits = ctypes.create_string_buffer(_LINE), _SIZE(), _SIZE()
        index = 0
        while True:
            code = _library.rohcfn_asked(self._handle, index, name, _LINE, said, bits)
            if code == FAULTS.index(NoSuch):
                return
            if code:
                raise FAULTS[code]()
            yield name.raw[: said.value].decode(), bits.value
            index += 1

    @property
    def asked(self):
        """The name of each asked field, and how many bits its values have, in the order of CONTROL."""
        return list(self._asked)

    def most(self):
        """The most bits of a header, and of a packet."""
        header, packed = _SIZE(), _SIZE()
        self._call("most", header, packed)
        return header.value, packed.value

    def pack(self, header, asked=(), flow=0):
        """The packet of an item: bits of its header, and of the values of the asked fields, in their order."""
        bits, octets = header
        values = b"".join(octets for _, octets in asked)
        packed, room = _SIZE(), len(self._packed_room)
        self._check_asked(asked)
        self._call("pack", flow, octets, len(octets), bits, values, len(values), self._packed_room, room, packed)
        return packed.value, self._packed_room.raw[: _filled(packed.value)]

    def _check_asked(self, asked):
        """Each value has as many bits as its field."""
        if [bits for bits, _ in asked] != [bits for _, bits in self._asked]:
            raise Asked("F2 Asked")

    def unpack(self, packet, flow=0):
        """The header, the values of the asked fields, and how many bits the packet took, of bits that begin with it."""
        bits, octets = packet
        counts = _Counts()
        rooms = [self._header_room, len(self._header_room), self._asked_room, len(self._asked_room)]
        self._call("unpack", flow, octets, len(octets), bits, *rooms, counts)
        header = counts.header_bits, self._header_room.raw[: _filled(counts.header_bits)]
        return header, list(self._values(self._asked_room.raw)), counts.taken_bits

    def _values(self, octets):
        """The values of the asked fields, of the octets that they are."""
        for _, bits in self._asked:
            yield bits, octets[: _filled(bits)]
            octets = octets[_filled(bits) :]

    def reset(self, flow=0):
        """Both ends of the flow begin anew."""
        self._call("reset", flow)

    def robust(self, lost, flow=0):
        """From here on so many packets of the flow in a row may be lost."""
        self._call("robust", flow, lost)

    def contexts(self, flow=0):
        """How many contexts a receiver of the flow may hold."""
        count = _SIZE()
        self._call("contexts", flow, count)
        return count.value

    def why(self):
        """The line of the last refusal, as the program prints it after `item 1: ` or `packet 1: `."""
        line, said = ctypes.create_string_buffer(_LINE), _SIZE()
        self._call("why", line, _LINE, said)
        return line.raw[: min(said.value, _LINE)].decode()

    def close(self):
        """Closes the session. A second time does nothing."""
        _library.rohcfn_close(self._handle)

    def __enter__(self):
        return self

    def __exit__(self, *_):
        self.close()

    def __del__(self):
        if hasattr(self, "_handle"):
            self.close()
