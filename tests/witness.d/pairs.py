"""The pairs of witness: which member of our record is which field of tshark, and what is known to differ.

A pair is (member, fields, how): how takes the member's values and each field's texts and gives two lists that must be the
same. Of a known difference there are the kind (its first words), the member, a test of (packet, ours, theirs), and the row
of docs/DIFFERENCES.md, or what differs where there is none."""
import re
from collections import namedtuple

import packets as lay


def number(ours, theirs):
    return ours, [int(t, 0) for t in theirs]


def first(ours, theirs):
    """The outermost of nested PDUs."""
    return number(ours, theirs[:1])


TRUE = ("1", "True")


def truth(ours, theirs):
    return ours, [t in TRUE for t in theirs[:1]]


def plain(text):
    """Octets as hex digits alone, without the marks between them and about a selector."""
    return re.sub(r"[^0-9a-f]", "", text)


def octets(ours, theirs):
    return ours, [plain(t) for t in theirs]


def outer_octets(ours, theirs):
    return octets(ours, theirs[:1])


def named(**codes):
    """A name of ours for a code."""
    return lambda ours, theirs: ([codes.get(o.replace("-", "_"), o) for o in ours], [int(t, 0) for t in theirs[:1]])


def hexes(*widths):
    """Octets of ours for numbers of so many octets each, one field after another."""

    def how(ours, *theirs):
        return ours, ["".join(f"{int(n, 0):0{2 * w}x}" for n, w in zip(parts, widths)) for parts in zip(*theirs)]

    return how


def bits(ours, high, low):
    return ours, [2 * (h in TRUE) + (l in TRUE) for h, l in zip(high, low)]


def lengths(ours, theirs):
    """An attribute's value is a number of one octet, or octets, or there is none."""
    return [1 if "value" in a else len(a.get("value_hex", "")) // 2 for a in ours], [int(t, 0) for t in theirs]


def capacity(ours, theirs):
    """Where tshark has the priority (16) too; ours has that as a number."""
    kept = [a for a in ours if a["type_code"] in (15, 16)]
    return [a["value"] if "value" in a else int(a["value_hex"], 16) for a in kept], [int(t, 0) for t in theirs]


def prefixes(ours, counts, infos):
    return ours, [f"{plain(info)}/{count}" for count, info in zip(counts, infos)]


def for_clnp(ours, types, names):
    return ours, [int(t, 0) == 1 and plain(n) == "81" for t, n in zip(types, names)]


def user_length(ours, whole, header, indicator):
    return ours, [int(w) - int(h) - int(i) - 1 for w, h, i in zip(whole, header, indicator)]


def security(ours, theirs):
    """The upper two bits of the format: ours names one format, and else has the octets."""
    return [3 if o.get("security_format") else int(o["value_hex"][:2], 16) >> 6 for o in ours], [int(t, 0) for t in theirs]


def priority(ours, theirs):
    """Our name of what tshark has as a priority."""
    return ours, ["priority" for _ in theirs]


def codes(ours, theirs):
    return [int(o, 0) for o in ours], [int(t, 0) for t in theirs]


def of_class(top):
    """Facility codes whose upper two bits are these."""
    return lambda ours, theirs: ([c for c in (int(o, 0) for o in ours) if c >> 6 == top], [int(t, 0) for t in theirs])


X25_KINDS = named(
    data=0x00, rr=0x01, rnr=0x05, rej=0x09, call_request=0x0B, call_accepted=0x0F, clear_request=0x13,
    clear_confirmation=0x17, reset_request=0x1B, reset_confirmation=0x1F, restart_request=0xFB,
    restart_confirmation=0xFF, diagnostic=0xF1,
)  # fmt: skip
X25_WHOLE = [("kind", "x25.type", X25_KINDS)]
LCN = ("lcn", "x25.lcn", number)
PR = ("pr", "x25.p_r", number)
DIAGNOSTIC = ("diagnostic", "x25.diagnostic", number)
CALL = [
    ("facilities.code", "x25.facility.classA", of_class(0)),
    ("facilities.code", "x25.facility.classB", of_class(1)),
    ("facilities.code", "x25.facility.classC", of_class(2)),
    ("facilities.code", "x25.facility.classD", of_class(3)),
    ("facilities[0x01].params", "x25.facility.reverse", hexes(1)),
    ("facilities[0x42].params", "x25.facility.packet_size.called_dte x25.facility.packet_size.calling_dte", hexes(1, 1)),
    ("facilities[0x43].params", "x25.window_size.called_dte x25.window_size.calling_dte", hexes(1, 1)),
]
COTP_TYPE = ("cotp.tpdu", "cotp.type", named(CR=14, CC=13, DR=8, DC=12, DT=15, ED=1, AK=6, EA=2, RJ=5, ER=7))
CLNP = [
    ("type", "clnp.cnf.type", named(DT=0x1C, ERQ=0x1E, ERP=0x1F, ER=0x01)),
    ("version", "clnp.version", first),
    ("lifetime_500ms", "clnp.ttl", first),
    ("seg_len", "clnp.pdu.len", first),
    ("dst_nsap", "clnp.dsap", outer_octets),
    ("src_nsap", "clnp.ssap", outer_octets),
    ("error_report", "clnp.cnf.report_error", truth),
    ("more_segments", "clnp.cnf.more_segments", truth),
    ("pdu_id", "clnp.data_unit_identifier", number),
    ("segment_offset", "clnp.segment_offset", number),
    ("total_len", "clnp.total_length", number),
    ("options.priority", "osi.options.priority", number),
    ("options[0xcc].value_hex", "osi.options.padding", octets),
    COTP_TYPE,
]
CLNP_SECURITY = [("options[0xc5]", "osi.options.security_type", security)]
CLNP_REASON = [("options.reason", "osi.options.rtd_general", number)]
CLNP_LABEL = [
    ("options.security_label.sec_info.route_policy", "clnp.atn.tt", lambda o, t: (o, [int(x, 0) % 32 for x in t])),
    ("options.security_label.sec_info.class_id", "clnp.atn.sc", number),
]
COTP = [
    COTP_TYPE,
    ("cotp.dst_ref", "cotp.destref", number),
    ("cotp.params.code", "cotp.parameter_code", codes),
    ("cotp.params[0xc3].value_hex", "cotp.checksum", hexes(2)),
]
SOURCE = ("cotp.src_ref", "cotp.srcref", number)
USER = ("cotp.user_data_len", "clnp.pdu.len clnp.len cotp.li", user_length)
NUMBER = ("cotp.tpdu_seq", "cotp.tpdu-number", number)
NEXT = ("cotp.tpdu_seq", "cotp.next-tpdu-number", number)
CREDIT = ("cotp.credit", "cotp.credit", number)
CONNECT = [
    SOURCE,
    ("cotp.class", "cotp.class", number),
    ("cotp.options", "cotp.opts.extended_formats cotp.opts.no_explicit_flow_control", bits),
    ("cotp.params[0xc0].tpdu_size", "cotp.tpdu_size", number),
    ("cotp.params[0xc1].value_hex", "cotp.src-tsap-bytes", octets),
    ("cotp.params[0xc2].value_hex", "cotp.dst-tsap-bytes", octets),
    ("cotp.params[0x85].value", "cotp.ack_time", number),
    ("cotp.params[0x87].value", "cotp.vp_priority", number),
    ("cotp.params[0x8b].value", "cotp.reassignment_time", number),
    ("cotp.params[0xc4].value", "cotp.vp_version_nr", number),
    ("cotp.params[0xf2].value", "cotp.inactivity_timer", number),
]
ESIS = [
    ("type", "esis.type", named(ESH=2, ISH=4, RD=6)),
    ("payload_len", "esis.length", number),
    ("holding_time_s", "esis.htime", number),
    ("options[197]", "osi.options.security_type", security),
    ("options[205].value_hex", "osi.options.priority", hexes(1)),
    ("options[205].type", "osi.options.priority", priority),
]
IDRP = [
    ("type", "idrp.type", named(OPEN=1, UPDATE=2, ERROR=3, KEEPALIVE=4, CEASE=5, RIB_REFRESH=6)),
    ("bispdu_len", "idrp.li", number),
    ("payload_len", "idrp.li", number),
    ("sequence", "idrp.seq", number),
    ("ack", "idrp.ack", number),
    ("credit_offered", "idrp.credits-offered", number),
    ("credit_avail", "idrp.credits-avail", number),
]
UPDATE = [
    ("update.withdrawn_routes", "idrp.update.unfeasible-route", hexes(4)),
    ("update.path_attributes.type_code", "idrp.update.path-attribute-type", number),
    ("update.path_attributes", "idrp.update.path-attribute-length", lengths),
    ("update.path_attributes[1].value_hex",
     "idrp.update.path-attr.route-separator.id idrp.update.path-attr.route-separator.local-pref", hexes(4, 1)),
    ("update.path_attributes[7].value", "idrp.update.path-attr.multi-exit-disc", number),
    ("update.path_attributes[8].value_hex", "idrp.update.path-attr.transit-delay", hexes(2)),
    ("update.path_attributes[9].value_hex", "idrp.update.path-attr.residual-error", hexes(4)),
    ("update.path_attributes[10].value_hex", "idrp.update.path-attr.expense", hexes(2)),
    ("update.path_attributes[12].value_hex", "idrp.update.path-attr.hierarchical-decoding", hexes(1)),
    ("update.path_attributes[13].value", "idrp.update.path-attr.rd-hop-count", number),
    ("update.path_attributes", "idrp.update.path-attr.capacity", capacity),
    ("update.nlri.proto_type", "idrp.update.nlri.proto-type", number),
    ("update.nlri.clnp", "idrp.update.nlri.proto-type idrp.update.nlri.proto-id", for_clnp),
    ("update.nlri.prefixes", "idrp.update.nlri.addr-info-bits idrp.update.nlri.addr-info", prefixes),
]
OPEN = [
    ("open.version", "idrp.open.version", number),
    ("open.hold_time_s", "idrp.open.hold-time", number),
    ("open.max_pdu_size", "idrp.open.max-pdu-size", number),
    ("open.src_rdi", "idrp.open.src-rdi", octets),
]
ERROR = [("error_code", "idrp.error.code", number), ("error_subcode", "idrp.error.subcode", number)]
Kind = namedtuple("Kind", "letter dissector settings make wire pairs")


def x25(make, *pairs):
    return Kind("P", "x.25", (), make, bytes, X25_WHOLE + list(pairs))


def network(dissector, make, pairs, *settings):
    return Kind("N", dissector, settings, make, bytes, pairs)


def cotp(make, *pairs):
    return network("clnp", make, COTP + list(pairs))


def esis(make, *pairs):
    return network("esis", make, ESIS + list(pairs))


def idrp(code, body, *pairs):
    """Where ours takes 0x83, tshark takes 0x85 (row 1)."""
    return Kind("N", "idrp", (), lay.idrp(code, body), lambda p: b"\x85" + p[1:], IDRP + list(pairs))


KINDS = {
    "X.25 data": x25(lay.x25_data, LCN, PR, ("ps", "x25.p_s", number), ("more", "x25.m", truth)),
    "X.25 RR": x25(lay.x25_numbered(0x01), LCN, PR),
    "X.25 RNR": x25(lay.x25_numbered(0x05), LCN, PR),
    "X.25 REJ": x25(lay.x25_numbered(0x09), LCN, PR),
    "X.25 call request": x25(lay.x25_call(0x0B), LCN, *CALL),
    "X.25 call accepted": x25(lay.x25_call(0x0F), LCN, *CALL),
    "X.25 clear request": x25(lay.x25_caused(0x13), LCN, ("cause", "x25.clear_cause", number), DIAGNOSTIC),
    "X.25 clear confirmation": x25(lay.x25_plain(0x17), LCN),
    "X.25 reset request": x25(lay.x25_caused(0x1B), LCN, ("cause", "x25.reset_cause", number), DIAGNOSTIC),
    "X.25 reset confirmation": x25(lay.x25_plain(0x1F), LCN),
    "X.25 restart request": x25(lay.x25_whole(0xFB, 2, 2), ("cause", "x25.restart_cause", number), DIAGNOSTIC),
    "X.25 restart confirmation": x25(lay.x25_whole(0xFF, 0, 0)),
    "X.25 diagnostic": x25(lay.x25_whole(0xF1, 1, 4), DIAGNOSTIC),
    "X.25 interrupt": x25(lay.x25_interrupt, LCN),
    "X.25 modulo 128": x25(lay.x25_wide, LCN, PR),
    "CLNP DT": network("clnp", lay.clnp_plain(0x1C), CLNP + CLNP_SECURITY),
    "CLNP ERQ": network("clnp", lay.clnp_plain(0x1E), CLNP + CLNP_SECURITY),
    "CLNP ERP": network("clnp", lay.clnp_plain(0x1F), CLNP + CLNP_SECURITY),
    "CLNP ER": network("clnp", lay.clnp_error, CLNP + CLNP_SECURITY + CLNP_REASON),
    "CLNP security label": network("clnp", lay.clnp_label, CLNP + CLNP_LABEL, "clnp.decode_atn_options:TRUE"),
    "COTP CR": cotp(lay.cotp_connect(0xE0), *CONNECT),
    "COTP CC": cotp(lay.cotp_connect(0xD0), *CONNECT),
    "COTP DR": cotp(lay.cotp_refuse, SOURCE, ("cotp.reason", "cotp.cause", number)),
    "COTP DC": cotp(lay.cotp_confirm, SOURCE),
    "COTP DT": cotp(lay.cotp_numbered(0xF0, (0, 0x80), user=True), NUMBER, USER, ("cotp.eot", "cotp.eot", truth)),
    "COTP ED": cotp(lay.cotp_numbered(0x10, (0x80,), user=True), NUMBER, USER),
    "COTP AK": cotp(lay.cotp_numbered(0x60, credit=True), NEXT, CREDIT),
    "COTP EA": cotp(lay.cotp_numbered(0x20), NEXT),
    "COTP RJ": cotp(lay.cotp_numbered(0x50, credit=True, variable=()), NEXT, CREDIT),
    "COTP ER": cotp(lay.cotp_error, ("cotp.reject_cause", "cotp.reject_cause", number)),
    "ES-IS ESH": esis(lay.esis(2, lay.esh_addresses), ("addresses", "esis.sa", octets)),
    "ES-IS ISH": esis(lay.esis(4, lay.ish_address), ("addresses", "esis.net", octets)),
    "ES-IS RD": esis(lay.esis(6, lay.rd_addresses), ("addresses", "esis.da", octets)),
    "IDRP OPEN": idrp(1, lay.idrp_open, *OPEN),
    "IDRP UPDATE": idrp(2, lay.idrp_update, *UPDATE),
    "IDRP ERROR": idrp(3, lay.idrp_error, *ERROR),
    "IDRP KEEPALIVE": idrp(4, lay.nothing),
    "IDRP CEASE": idrp(5, lay.nothing),
    "IDRP RIB-REFRESH": idrp(6, lay.idrp_refresh),
}
ADDRESS_FORM = "31"
MODULO = "5"
FLAGS = "28"
REASON = "29"
PRIORITY = "30"
REDIRECT = "24"
KNOWN = [
    ("X.25", "cause", lambda p, o, t: p[3] >= 0x80 and o == [0], "7"),
    ("X.25 call", "facilities*", lambda p, o, t: p[0] >= 0x80, ADDRESS_FORM),
    ("X.25 interrupt", "*", lambda p, o, t: not o, "5"),
    ("X.25 modulo 128", "*", lambda p, o, t: not o, MODULO),
    ("CLNP", "error_report", lambda p, o, t: p[4] < 0x80 and not o, FLAGS),
    ("CLNP", "more_segments", lambda p, o, t: p[4] < 0x80 and not o, FLAGS),
    ("CLNP ER", "options.reason", lambda p, o, t: not o, REASON),
    ("CLNP", "cotp.tpdu", lambda p, o, t: p[4] % 32 != 0x1C and not t, "20"),
    ("ES-IS RD", "addresses", lambda p, o, t: not o, REDIRECT),
    ("ES-IS RD", "options*", lambda p, o, t: not o, REDIRECT),
    ("ES-IS", "options[205].type", lambda p, o, t: set(o) == {"unknown"}, PRIORITY),
    ("IDRP UPDATE", "update.path_attributes*", lambda p, o, t: p.endswith(b"\x80\x02\0\0") and o == t[:-1], "15"),
    ("IDRP UPDATE", "update.nlri*", lambda p, o, t: p.endswith(b"\x01\x01\x81\0\0") and o == t[:-1], "6"),
]
