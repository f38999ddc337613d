#!/usr/bin/env python3
"""Makes the items of the traces in data/ that no system recorded, a line for each header. They are drawn by a fixed seed, so each call prints the same.

    traces.py coap | mqttsn | sixlowpan

Each trace is one direction of one link: what a sensor sends. docs/TUNING.md says what stands in it."""
import random
import sys

MESSAGES = 160


def drawn(seed):
    """A function that gives one of some values, drawn by a seed. (What `random()` itself gives is the same in each version of Python.)"""
    draw = random.Random(seed)
    return lambda *values: values[int(draw.random() * len(values))]


# ---- CoAP (RFC 7252): a server that one client asks and that it notifies of a resource (RFC 7641)

CONFIRMABLE, NON, ACKNOWLEDGEMENT = 0, 1, 2
EMPTY, CHANGED, CONTENT = 0x00, 0x44, 0x45
WATCH = bytes.fromhex("7c31")  # the token of the observation


def coap_message(kind, code, number, token=b"", options=""):
    """A header: version 1, type, length of the token, code, message identifier, token, options."""
    return bytes([1 << 6 | kind << 4 | len(token), code]) + number.to_bytes(2, "big") + token + bytes.fromhex(options)


def coap():
    """Notifications, most of them not confirmable, with Observe, Content-Format (JSON) and Max-Age; between them answers to requests of the client: changed,
    content as text, or an empty acknowledgement and the content later. The server numbers its own messages; an acknowledgement has the request's number."""
    draw = drawn(7252)
    own, observed, asked, age = 0x3a17, 0x0a05, 0x9001, 60
    for _ in range(MESSAGES):
        kind = draw(*["notify"] * 12, *["changed"] * 4, *["text"] * 2, "later")
        token = (asked * 3 % 2**16).to_bytes(2, "big")
        if kind == "notify":
            age = draw(*[age] * 14, 30, 120)
            own, observed = (own + 1) % 2**16, (observed + draw(1, 1, 1, 1, 2)) % 2**16
            yield coap_message(draw(*[NON] * 9, CONFIRMABLE), CONTENT, own, WATCH, "62%04x613221%02x" % (observed, age))
        elif kind == "changed":
            yield coap_message(ACKNOWLEDGEMENT, CHANGED, asked, token)
        elif kind == "text":
            yield coap_message(ACKNOWLEDGEMENT, CONTENT, asked, token, "c0")
        else:
            own = (own + 1) % 2**16
            yield coap_message(ACKNOWLEDGEMENT, EMPTY, asked)
            yield coap_message(CONFIRMABLE, CONTENT, own, token, "c0")
        asked = (asked + (kind != "notify")) % 2**16


# ---- MQTT-SN 1.2: a sensor and its gateway

REGISTER, PUBLISH, PUBACK, PINGREQ, DISCONNECT = 0x0a, 0x0c, 0x0d, 0x16, 0x18
TOPICS = {1: (9, 0x00), 2: (11, 0x00), 3: (23, 0x20)}  # of each topic: the length of its messages, and the flags


def mqttsn_message(length, kind, *words, last=b""):
    """A header: length, type, words of 16 bits, and what may stand after them."""
    return bytes([length, kind]) + b"".join(it.to_bytes(2, "big") for it in words) + last


def mqttsn():
    """Topics are registered, then values of three topics are published, the third with quality 1; between them acknowledgements of what the gateway
    publishes, pings, and now and then sleep. What a message publishes is no part of its header, nor is the name of a topic."""
    draw = drawn(1883)
    number, heard = 1, 0x0200
    for place in range(MESSAGES):
        topic = (1, 2, 1, 3)[place % 4]
        kind = draw(*["publish"] * 16, *["acknowledge"] * 2, "ping", "sleep") if place >= 3 else "register"
        if kind == "register":
            yield mqttsn_message(draw(18, 20, 21), REGISTER, 0, number)
            number += 1
        elif kind == "publish":
            length, flags = TOPICS[topic]
            length += draw(*[0] * 15, 2)
            yield bytes([length, PUBLISH, flags]) + topic.to_bytes(2, "big") + (number if flags else 0).to_bytes(2, "big")
            number += flags != 0
        elif kind == "acknowledge":
            heard += 1
            yield mqttsn_message(7, PUBACK, 9, heard, last=b"\0")
        elif kind == "ping":
            yield mqttsn_message(2, PINGREQ)
        else:
            yield mqttsn_message(4, DISCONNECT, draw(30, 30, 300))


# ---- 6LoWPAN (RFC 6282) over IEEE 802.15.4: a node in a tree of routers

def sixlowpan():
    """Data frames of a node to its parent, or now and then to another router: frame control, sequence number, PAN, the two short addresses, all with their
    low octet first; then IPHC and the UDP header by NHC with its checksum. Of the node's own datagrams IPHC leaves the addresses out; those of two other nodes,
    which it forwards, have the hop limit and the source's address. A frame that isn't acknowledged is sent again with the same sequence number."""
    draw = drawn(6282)
    number, parent = 0xc4, "0100"
    for _ in range(MESSAGES):
        number, parent = (number + 1) % 2**8, draw(*[parent] * 20, "0100", "0300")
        network = draw(*["7e33"] * 7, "7c233f0007", "7c233f0007", "7c233e0009")
        ports = draw(*["f3c7"] * 8, "f3c6", "f016331633")
        frame = "6188%02xcdab%s0500%s%s%02x%02x" % (number, parent, network, ports, draw(*range(256)), draw(*range(256)))
        for _ in range(draw(*[1] * 15, 2)):
            yield bytes.fromhex(frame)


TRACES = {"coap": coap, "mqttsn": mqttsn, "sixlowpan": sixlowpan}


def items(name):
    """The lines of a trace."""
    return ["%d:%s" % (8 * len(it), it.hex()) for it in TRACES[name]()]


def main(words):
    if len(words) != 1 or words[0] not in TRACES:
        sys.exit(__doc__)
    print("\n".join(items(words[0])))


if __name__ == "__main__":
    main(sys.argv[1:])
