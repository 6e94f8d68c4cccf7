"""The packets of witness: for each kind a function from a random generator to a well-formed packet."""


def u16(n):
    return n.to_bytes(2, "big")


def some(r, least, most):
    return r.randbytes(r.randint(least, most))


def counted(octets):
    return bytes([len(octets)]) + octets


def coded(code, value):
    return bytes([code]) + counted(value)


def several(r, most, choices):
    """Up to `most` parts, each made by one of the choices."""
    return b"".join(r.choice(choices)(r) for _ in range(r.randint(0, most)))


# X.25


def x25_head(r, code, flags=(0x10, 0x50)):
    return bytes([r.choice(flags) | r.randrange(16), r.randrange(256), code])


def x25_data(r):
    return x25_head(r, r.randrange(128) * 2, (0x10, 0x50, 0x90, 0xD0)) + some(r, 0, 20)


def x25_numbered(code):
    return lambda r: x25_head(r, code | r.randrange(8) << 5)


def x25_plain(code):
    return lambda r: x25_head(r, code)


def x25_caused(code):
    return lambda r: x25_head(r, code) + r.randbytes(2)


def x25_whole(code, least, most):
    """Of no channel."""
    return lambda r: bytes([0x10, 0, code]) + some(r, least, most)


def digits(r, count):
    """A digit in each half octet, with a zero at the end where their count is odd."""
    text = "".join(r.choice("0123456789") for _ in range(count))
    return bytes.fromhex(text + "0" * (count % 2))


FACILITIES = (
    lambda r: bytes([r.choice((0x01, 0x20, 0x3E))]) + r.randbytes(1),
    lambda r: b"\x42" + bytes(r.choices(range(4, 13), k=2)),
    lambda r: b"\x43" + bytes(r.choices(range(1, 8), k=2)),
    lambda r: bytes([r.choice((0x60, 0x7E))]) + r.randbytes(2),
    lambda r: bytes([r.choice((0x80, 0xBE))]) + r.randbytes(3),
    lambda r: coded(r.choice((0xE0, 0xFE)), some(r, 1, 6)),
)


def x25_call(code):
    """With the lengths of both addresses in one octet, or after an A bit in two."""

    def make(r):
        called, calling = r.randrange(16), r.randrange(16)
        lengths, flags = bytes([calling * 16 + called]), (0x10, 0x50)
        if r.random() < 0.1:
            lengths, flags = bytes([called, calling]), (0x90, 0xD0)
        address = lengths + digits(r, called + calling)
        return x25_head(r, code, flags) + address + counted(several(r, 4, FACILITIES)) + some(r, 0, 8)

    return make


def x25_interrupt(r):
    return x25_head(r, 0x23) + some(r, 1, 32)


def x25_wide(r):
    """Data in modulo 128."""
    return x25_head(r, r.randrange(128) * 2, (0x20, 0x60)) + some(r, 1, 20)


# CLNP

CLNP_OPTIONS = (
    lambda r: coded(0xCD, r.randbytes(1)),
    lambda r: coded(0xC5, some(r, 1, 5)),
    lambda r: coded(0xCC, some(r, 1, 5)),
    lambda r: coded(0xC3, r.randbytes(1)),
)


def clnp(r, code, flags, options, data, offset=0):
    """A PDU of this type; SP (0x80) among the flags adds the segmentation part."""
    variable = counted(some(r, 1, 20)) + counted(some(r, 1, 20))
    length = 9 + len(variable) + (6 if flags & 0x80 else 0) + len(options)
    if flags & 0x80:
        variable += r.randbytes(2) + u16(offset) + u16(length + offset + len(data) + r.randrange(99))
    head = bytes([0x81, length, 1, r.randrange(256), flags | code])
    return head + u16(length + len(data)) + bytes(2) + variable + options + data


def clnp_plain(code):
    def make(r):
        flags = r.choice((0, 0x20, 0x80, 0xA0, 0xC0, 0xE0))
        offset = r.choice((0, r.randrange(8000) * 8)) if flags & 0x80 else 0
        data = r.choice((b"", counted(b"\x70" + r.randbytes(2) + b"\0")))
        return clnp(r, code, flags, several(r, 3, CLNP_OPTIONS), data, offset)

    return make


def clnp_error(r):
    """With its reason for discard, and the header of the discarded PDU or nothing."""
    discarded = r.choice((b"", clnp(r, 0x1C, 0x20, b"", b"")))
    return clnp(r, 0x01, 0, coded(0xC1, bytes([r.randrange(4), r.randrange(30)])) + several(r, 2, CLNP_OPTIONS), discarded)


def clnp_label(r):
    """With an ATN security label of a traffic type and a classification."""
    tags = b"\x01\x0f\x01" + r.randbytes(1) + b"\x01\x03\x01" + r.randbytes(1)
    label = b"\xc0" + counted(bytes.fromhex("06042b1b0000")) + counted(tags)
    return clnp(r, 0x1C, 0, coded(0xC5, label) + coded(0xCD, r.randbytes(1)), b"")


# COTP

CONNECT = (
    lambda r: coded(0xC0, bytes([r.randint(7, 13)])),
    lambda r: coded(r.choice((0xC1, 0xC2)), some(r, 1, 8)),
    lambda r: coded(r.choice((0x85, 0x87, 0x8B)), r.randbytes(2)),
    lambda r: coded(0xC4, r.randbytes(1)),
    lambda r: coded(0xC6, r.randbytes(1)),
    lambda r: coded(0xF2, r.randbytes(4)),
)


def tpdu(r, head, user=b""):
    """In a CLNP DT that is whole."""
    return clnp(r, 0x1C, r.choice((0, 0x80)), several(r, 1, CLNP_OPTIONS[:1]), counted(head) + user)


def cotp_connect(code):
    def make(r):
        head = bytes([code | r.randrange(16)]) + (b"\0\0" if code == 0xE0 else r.randbytes(2)) + r.randbytes(2)
        return tpdu(r, head + bytes([r.randrange(5) * 16 + r.randrange(4)]) + several(r, 5, CONNECT))

    return make


def checksum(r):
    return coded(0xC3, r.randbytes(2))


def cotp_refuse(r):
    reason = r.choice((0, 1, 2, 3, 128, 129, 130, 131, 132, 133, 135, 136, 138))
    return tpdu(r, b"\x80" + r.randbytes(4) + bytes([reason]) + several(r, 1, (lambda r: coded(0xE0, some(r, 1, 9)),)))


def cotp_confirm(r):
    return tpdu(r, b"\xc0" + r.randbytes(4) + several(r, 1, (checksum,)))


def cotp_error(r):
    """Of no more than eight octets, as tshark wants it."""
    return tpdu(r, b"\x70" + r.randbytes(2) + bytes([r.randrange(4)]) + several(r, 1, (lambda r: coded(0xC1, some(r, 1, 2)),)))


def cotp_numbered(code, end=(0,), credit=False, user=False, variable=(checksum,)):
    """In the normal or the extended format: the number below one of the bits `end`, a credit, parameters, user data."""

    def make(r):
        wide = r.random() < 0.5
        low = r.randrange(16) if credit and not wide else 0
        number = bytes([r.choice(end) | r.randrange(128)]) + r.randbytes(3 if wide else 0)
        head = bytes([code | low]) + r.randbytes(2) + number + (r.randbytes(2) if credit and wide else b"")
        return tpdu(r, head + several(r, len(variable), variable), some(r, 1, 9) if user else b"")

    return make


# ES-IS

ESIS_OPTIONS = (
    lambda r: coded(0xCD, r.randbytes(1)),
    lambda r: coded(0xC5, some(r, 1, 4)),
    lambda r: coded(r.choice((0x81, 0x88, 0xCF)), some(r, 1, 4)),
)


def esis(code, addresses):
    def make(r):
        variable = addresses(r) + several(r, 3, ESIS_OPTIONS)
        return bytes([0x82, 9 + len(variable), 1, 0, code]) + r.randbytes(2) + bytes(2) + variable

    return make


def esh_addresses(r):
    count = r.randint(1, 4)
    return bytes([count]) + b"".join(counted(some(r, 1, 20)) for _ in range(count))


def ish_address(r):
    return counted(some(r, 1, 20))


def rd_addresses(r):
    """The destination, the subnetwork address and a network entity title, which may be empty."""
    return counted(some(r, 1, 20)) + counted(some(r, 1, 8)) + counted(some(r, 0, 20))


# IDRP


def attribute(code, value):
    return bytes([0x80, code]) + u16(len(value)) + value


ATTRIBUTES = (
    lambda r: attribute(1, r.randbytes(5)),
    lambda r: attribute(r.choice((7, 12, 13, 15, 16)), r.randbytes(1)),
    lambda r: attribute(r.choice((8, 10)), r.randbytes(2)),
    lambda r: attribute(9, r.randbytes(4)),
)


def prefix(r):
    """Of whole octets: tshark cuts others to such."""
    octets = some(r, 1, 20)
    return bytes([8 * len(octets)]) + octets


def nlri(r):
    """Reachability of one protocol: CLNP's, or another."""
    protocol = r.choice((b"\x01\x01\x81", b"\x01\x01\x81", b"\x01" + counted(some(r, 1, 3))))
    addresses = b"".join(prefix(r) for _ in range(r.randint(1, 4)))
    return protocol + u16(len(addresses)) + addresses


def nothing(r):
    return b""


def idrp(code, body):
    def make(r):
        rest = r.randbytes(26) + body(r)
        return b"\x83" + u16(4 + len(rest)) + bytes([code]) + rest

    return make


def idrp_open(r):
    """No RIB attributes, no confederations, no authentication."""
    return r.randbytes(5) + counted(some(r, 1, 20)) + bytes(3)


def idrp_update(r):
    """With one entry of reachability at most, and an attribute without a value only at the end: tshark reads no further."""
    withdrawn = r.choice((0, r.randrange(6)))
    attributes = several(r, 4, ATTRIBUTES)
    reachable = several(r, 1, (nlri, nlri, lambda r: b"\x01\x01\x81\0\0"))
    if not reachable:
        attributes += attribute(2, b"")
    return u16(withdrawn) + r.randbytes(4 * withdrawn) + u16(len(attributes)) + attributes + reachable


def idrp_error(r):
    return bytes([r.randint(1, 5), r.randint(1, 13)]) + some(r, 0, 6)


def idrp_refresh(r):
    return bytes([r.randint(1, 3)])
