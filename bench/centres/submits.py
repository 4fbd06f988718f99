"""What was sent and what the other side got, in one form, for bench/interop: messages and reports as the program has them, and
each submit_sm as Net::SMPP, tshark and osmo-msc decoded it. `differences` compares the two."""
import csv
import dataclasses
import json
import re
import sqlite3
import subprocess
import xml.etree.ElementTree

STATEMENT = ["account", "topped", "free", "reserved", "charged", "returned"]

# The GSM 7 bit default alphabet by code, and its extension table (3GPP TS 23.038 6.2.1, 6.2.1.1).
GSM = (
    "@£$¥èéùìòÇ\nØø\rÅåΔ_ΦΓΛΩΠΨΣΘΞ\x1bÆæßÉ !\"#¤%&'()*+,-./0123456789:;<=>?¡ABCDEFGHIJKLMNOPQRSTUVWXYZÄÖÑÜ§"
    "¿abcdefghijklmnopqrstuvwxyzäöñüà"
)
EXTENDED = {0x0A: "\f", 0x14: "^", 0x28: "{", 0x29: "}", 0x2F: "\\", 0x3C: "[", 0x3D: "~", 0x3E: "]", 0x40: "|", 0x65: "€"}


@dataclasses.dataclass
class Submit:
    """One submit_sm. Addresses are TON, NPI and digits; the header is that of the user data, in hexadecimal digits; status and
    message_id are those of its answer, None where the decoder doesn't know them."""

    source: tuple
    dest: tuple
    has_header: bool
    coding: int
    receipt: bool
    header: str
    text: str
    status: int | None = None
    message_id: str | None = None


# Every key of a fields file, and what Net::SMPP calls its field.
FIELDS = """service_type = "OTP"
source_ton = 3
source_npi = 0
destination_ton = 2
destination_npi = 8
protocol_id = 64
priority = 2
registered_delivery = 2
replace = true
schedule = "000001000000000R"
validity_s = 300
parameters = ["0204:0007", "1400:31323031", "0019:00"]
"""
DECODED = {
    "service_type": "OTP", "source_addr_ton": 3, "source_addr_npi": 0, "dest_addr_ton": 2, "dest_addr_npi": 8, "protocol_id": 64,
    "priority_flag": 2, "registered_delivery": 2, "replace_if_present_flag": 1, "schedule_delivery_time": "000001000000000R",
    "validity_period": "000000000500000R", "sm_default_msg_id": 0, "user_message_reference": "\x00\x07", "5120": "1201",
    "payload_type": "\x00",
}


def records(name):
    with open(name, newline="", encoding="utf-8") as file:
        return list(csv.reader(file))


def report_of(name):
    """The parts of a report: (message, part, attempts, outcome, status, id) each."""
    found = records(name)
    return [(int(it[0]), int(it[1]), int(it[2]), *it[3:]) for it in found[1 : found.index(STATEMENT)]]


def address(text, is_source):
    if re.fullmatch(r"\+?[0-9]{1,20}", text):
        return (1, 1, text.lstrip("+"))
    return (0, 0, "") if text == "" and is_source else (5, 0, text)


def gsm_text(septets):
    """The text that septets spell, one an octet."""
    text, escaped = "", False
    for code in septets:
        if code == 0x1B and not escaped:
            escaped = True
            continue
        text += EXTENDED[code] if escaped else GSM[code]
        escaped = False
    return text


def unpacked(octets):
    """Septets that stand packed in octets (3GPP TS 23.038 6.1.2.1)."""
    bits = int.from_bytes(octets, "little")
    return [bits >> 7 * k & 0x7F for k in range(len(octets) * 8 // 7)]


def user_data(octets, has_header, coding):
    """Header and text of a short_message with one septet an octet."""
    length = octets[0] + 1 if has_header else 0
    rest = octets[length:]
    return octets[:length].hex(), rest.decode("utf-16-be") if coding == 8 else gsm_text(rest)


def got_by_net_smpp(name):
    """The submit_sm of bench/centres/net-smpp.pl, and how often it got each other PDU with which status."""
    submits, others = [], {}
    with open(name) as file:
        for it in map(json.loads, file):
            if it["name"] != "submit_sm":
                key = (it["name"], it["status"])
                others[key] = others.get(key, 0) + 1
                continue
            source = (it["source_addr_ton"], it["source_addr_npi"], it["source_addr"])
            dest = (it["dest_addr_ton"], it["dest_addr_npi"], it["destination_addr"])
            submits.append(
                Submit(
                    source, dest, it["esm_class"] == 0x40, it["data_coding"], it["registered_delivery"] == 1, it["header"],
                    it["text"], it["answered"], it["message_id"],
                )
            )
    return submits, others


def lawful(octets):
    """tshark's XML as XML has to be: tshark writes control characters of a text as they are, and each half of a surrogate pair
    as a character of its own."""
    text = re.sub("[\x00-\x08\x0b\x0c\x0e-\x1f]", " ", octets.decode("utf-8", "surrogatepass"))
    return text.encode("utf-16", "surrogatepass").decode("utf-16")


def pdus_of_capture(name, port):
    """Each PDU of a capture as tshark decodes it: its connection and the dictionary of its fields' show and value."""
    words = ["tshark", "-r", name, "-d", f"tcp.port=={port},smpp", "-Y", "smpp", "-T", "pdml"]
    words += ["-o", "smpp.decode_sms_over_smpp:GSM 7-bit"]
    out = subprocess.run(words, stdout=subprocess.PIPE, stderr=subprocess.DEVNULL, check=True, timeout=120).stdout
    for packet in xml.etree.ElementTree.fromstring(lawful(out)).iter("packet"):
        stream = next(it.get("show") for it in packet.iter("field") if it.get("name") == "tcp.stream")
        for proto in packet.iter("proto"):
            if proto.get("name") == "smpp":
                yield stream, {it.get("name"): (it.get("show"), it.get("value") or "") for it in proto.iter("field")}
            if proto.get("name") == "_ws.malformed":
                yield stream, {"malformed": ("", "")}


def got_by_tshark(name, port):
    """The submit_sm of a capture as tshark decodes them, with their answers, and how many PDUs it calls malformed."""
    submits, malformed = {}, 0
    for stream, it in pdus_of_capture(name, port):
        if "malformed" in it:
            malformed += 1
            continue
        key = (stream, it["smpp.sequence_number"][0])
        number = {field: int(value or "0", 16) for field, (_, value) in it.items() if re.fullmatch("[0-9a-f]{0,8}", value)}
        if number["smpp.command_id"] == 4:
            submits[key] = submit_of_tshark(it, number)
        elif number["smpp.command_id"] == 0x80000004:
            submits[key].status = number["smpp.command_status"]
            submits[key].message_id = it.get("smpp.message_id", ("", ""))[0]
    return list(submits.values()), malformed


def submit_of_tshark(it, number):
    octets = bytes.fromhex(it.get("smpp.message", ("", ""))[1])
    has_header = number["smpp.esm.submit.features"] == 1
    # (tshark spells some control characters out)
    shown = re.sub(r"\\x[0-9a-f]", " ", it.get("smpp.message_text", ("", ""))[0])
    header, text = user_data(octets, has_header, number["smpp.data_coding"])
    if shown.split() != re.sub("[\x00-\x1f]", " ", text).split():
        text = f"(octets: {text}, tshark: {shown})"
    return Submit(
        (number["smpp.source_addr_ton"], number["smpp.source_addr_npi"], it.get("smpp.source_addr", ("", ""))[0]),
        (number["smpp.dest_addr_ton"], number["smpp.dest_addr_npi"], it["smpp.destination_addr"][0]),
        has_header, number["smpp.data_coding"], number["smpp.regdel.receipt"] == 1, header, text,
    )


def got_by_osmo(name):
    """What osmo-msc put into its database. It keeps no count of septets, so 0 (@) at a text's end is dropped."""
    with sqlite3.connect(f"file:{name}?mode=ro", uri=True) as base:
        rows = base.execute(
            "select src_ton, src_npi, src_addr, dest_ton, dest_npi, dest_addr, ud_hdr_ind, data_coding_scheme, status_rep_req,"
            " user_data from SMS order by id"
        ).fetchall()
    submits = []
    for *addresses, has_header, coding, receipt, data in rows:
        length = data[0] + 1 if has_header else 0
        if coding == 8:
            text = data[length:].decode("utf-16-be")
        else:
            text = gsm_text(unpacked(data)[(length * 8 + 6) // 7 :]).rstrip("@")
        ends = (tuple(addresses[:3]), tuple(addresses[3:]))
        submits.append(Submit(*ends, has_header == 1, coding, receipt == 1, data[:length].hex(), text, 0))
    return submits


def messages_of(submits):
    """The messages that so many accepted submit_sm are: lists of parts in order, joined by their header's reference."""
    found = {}
    for place, it in enumerate(submits):
        if it.status in (0, None):
            found.setdefault((it.dest, it.header[:-2] or place), []).append(it)
    for parts in found.values():
        parts.sort(key=lambda it: it.header)
    return list(found.values())


def is_whole(parts, reference):
    """Whether these are all parts of a message: one without a header, or each with its number (3GPP TS 23.040 9.2.3.24.1)."""
    if len(parts) == 1:
        return parts[0].header == ""
    head = {"8": r"050003..", "16": r"060804...."}[reference]
    numbers = [f"{len(parts):02x}{k + 1:02x}" for k in range(len(parts))]
    return all(re.fullmatch(head + wanted, it.header) for it, wanted in zip(parts, numbers))


def differences(messages, report, submits, receipt=False, reference="8", ends=lambda text: text, refused=frozenset()):
    """How the messages that the report calls charged, which are all but those of `refused`, differ from those that were got;
    `ends` drops what a decoder can't know."""
    pool = messages_of(submits)
    wrong = [f"reported: {it}" for it in report if (it[3] != "charged") != (it[0] in refused)]
    for index, (_account, source, dest, text) in enumerate(records(messages)[1:]):
        rows = [it for it in report if it[0] == index and it[3] == "charged"]
        if not rows:
            continue
        joined = [it for it in pool if it[0].dest == address(dest, False) and "".join(p.text for p in it) == ends(text)]
        if not joined:
            wrong.append(f"message {index} didn't come as it was sent")
            continue
        parts = joined[0]
        pool.remove(parts)
        ids = [it.message_id for it in parts]
        is_gsm = all(it in GSM or it in EXTENDED.values() for it in text)
        fields = {(it.source, it.coding, it.receipt, it.has_header) for it in parts}
        if fields != {(address(source, True), 0 if is_gsm else 8, receipt, len(parts) > 1)}:
            wrong.append(f"message {index} has the fields {fields}")
        if not is_whole(parts, reference) or len(parts) != len(rows):
            wrong.append(f"message {index} came in {len(parts)} parts, reported as {len(rows)}: {[it.header for it in parts]}")
        if None not in ids and ids != [it[5] for it in rows]:
            wrong.append(f"message {index} was given the ids {ids}, reported as {[it[5] for it in rows]}")
    return wrong + [f"came and was not reported as charged: {it}" for it in pool]
