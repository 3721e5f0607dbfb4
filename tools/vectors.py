#!/usr/bin/env python3
"""Works out what the programs vectors_* print, by polynomial long division and by the bit tables of the standard,
with nothing shared with the proved code. Usage: tools/vectors.py (writes the five programs' stdout files)

The frames and registers that the standard and its readers publish stand below as they are printed
there; each is held against what is worked out here before a line is written."""
import pathlib

out = []


def remainder(bits, poly, width):
    """bits * x^width modulo x^width + poly, as long division of bit strings."""
    work = [int(b) for b in bits] + [0] * width
    divisor = [1] + [(poly >> (width - 1 - i)) & 1 for i in range(width)]
    for i in range(len(bits)):
        if work[i]:
            for j, d in enumerate(divisor):
                work[i + j] ^= d
    return int("".join(map(str, work[len(bits):])) or "0", 2)


def bits_of(data):
    return "".join(f"{b:08b}" for b in data)


def crc7(data):
    return remainder(bits_of(data), 0b0001001, 7)


def crc16(data):
    return remainder(bits_of(data), 0b0001000000100001, 16)


def show(data):
    return bytes(data).hex().upper()


def pack(fields):
    """Fields as (width, value), high bit first."""
    text = "".join(f"{v:0{w}b}" for w, v in fields)
    assert len(text) == sum(w for w, _ in fields) and len(text) % 8 == 0, fields
    return bytes(int(text[i:i + 8], 2) for i in range(0, len(text), 8))


def closed(head):
    return bytes(head) + bytes([crc7(head) * 2 + 1])


def command(index, argument):
    return closed(pack([(1, 0), (1, 1), (6, index), (32, argument)]))


def response(index, content):
    return closed(pack([(1, 0), (1, 0), (6, index), (32, content)]))


PUBLISHED = {  # (index, argument): frame
    (0, 0): "400000000095", (17, 0): "510000000055", (11, 0): "4B0000000077", (19, 0): "53000000008D",
    (8, 0x1AA): "48000001AA87", (55, 0): "770000000065", (41, 0xFF8000): "6900FF800085",
    (2, 0): "42000000004D", (3, 0): "430000000021", (7, 0x10000): "4700010000DD", (7, 0): "470000000083",
    (9, 0x10000): "4900010000F1", (10, 0x10000): "4A0001000045", (13, 0x10000): "4D0001000053",
    (13, 0): "4D000000000D", (55, 0x10000): "77000100003B", (15, 0x10000): "4F000100008B",
    (41, 0): "6900000000E5", (41, 0x40FF8000): "6940FF800017", (12, 0): "4C0000000061",
    (16, 512): "500000020015", (16, 511): "50000001FFDD", (17, 1): "510000000147",
    (17, 32256): "5100007E00DD", (17, 32768): "5100008000F3", (18, 0): "5200000000E1",
    (24, 0): "58000000006F", (25, 0): "590000000003", (28, 0): "5C00000000CD", (29, 0): "5D00000000A1",
    (30, 0): "5E0000000015", (30, 16384): "5E00004000CF", (32, 0): "6000000000DF", (33, 512): "61000002009F",
    (38, 0): "6600000000A5", (42, 0): "6A0000000051", (51, 0): "7300000000C7", (22, 0): "560000000043",
    (23, 0): "57000000002F",
}

STATUSES = {  # (index, status): R1
    (55, 0x00800120): "370080012009", (55, 0x00400120): "37004001204F", (55, 0x00000120): "370000012083",
    (7, 0x00000700): "070000070075", (13, 0x00000900): "0D000009003F", (13, 0x00000E00): "0D00000E005D",
    (17, 0x80000900): "118000090051", (17, 0x40000900): "1140000900F5", (24, 0x04000900): "180400090045",
    (12, 0x00000B00): "0C00000B007F", (12, 0x00000D00): "0C00000D000B",
}

CSDS = {  # (C_SIZE, C_SIZE_MULT, CCC, permanent, temporary): CSD
    (15, 0, 0x175, 0, 0): "0026003217598003C0004F80824000BF",
    (15, 0, 0x1F5, 0, 0): "002600321F598003C0004F8082400053",
    (15, 0, 0x1F5, 1, 0): "002600321F598003C0004F8082402037",
    (15, 0, 0x1F5, 0, 1): "002600321F598003C0004F8082401061",
    (0, 0, 0x1F5, 0, 0): "002600321F59800000004F80824000E9",
    (4095, 2, 0x1F5, 0, 0): "002600321F5983FFC0014F8082400041",
    (4095, 7, 0x1F5, 0, 0): "002600321F5983FFC003CF8082400093",
}


def checks():
    for data in (b"\x40\0\0\0\0", b"\x51\0\0\0\0", b"\x11\0\0\x09\0", b""):
        out.append(f"crc7 {show(data)} {crc7(data):02X}")
    named = [("empty", b"", 0), ("123456789", b"123456789", 0x31C3), ("512 x FF", b"\xFF" * 512, 0x7FA1),
             ("512 x 00", bytes(512), 0), ("512 x AA", b"\xAA" * 512, 0xA521), ("512 x 55", b"\x55" * 512, 0xDA80)]
    for name, data, known in named:
        assert crc16(data) == known, name
        out.append(f"crc16 {name} {crc16(data):04X}")


def decoded(frame):
    """A command frame by its bits."""
    if len(frame) != 6:
        return "refused 01", "size"
    bits = bits_of(frame)
    if bits[:2] != "01":
        return "refused 07", "start or transmission"
    if int(bits[40:47], 2) != crc7(frame[:5]) or bits[47] != "1":
        return "refused 07", "check or end"
    return f"{int(bits[2:8], 2):02X} {int(bits[8:40], 2):08X}", "good"


def commands():
    order = [(0, 0), (2, 0), (3, 0), (7, 0x10000), (7, 0), (8, 0x1AA), (9, 0x10000), (10, 0x10000), (11, 0),
             (12, 0), (13, 0x10000), (13, 0), (15, 0x10000), (16, 512), (16, 511), (17, 0), (17, 1),
             (17, 32256), (17, 32768), (18, 0), (19, 0), (24, 0), (25, 0), (28, 0), (29, 0), (30, 0),
             (30, 16384), (32, 0), (33, 512), (38, 0), (41, 0), (41, 0xFF8000), (41, 0x40FF8000), (42, 0),
             (51, 0), (22, 0), (23, 0), (55, 0), (55, 0x10000), (63, 0xFFFFFFFF), (64, 0)]
    for index, argument in order:
        lead = f"command {index:02X} {argument:08X} "
        if index > 63:
            out.append(lead + "refused 08")
            out.append("  decoded refused 07")  # the buffer is still six zeros
            continue
        frame = command(index, argument)
        assert PUBLISHED.get((index, argument), show(frame)) == show(frame), (index, argument)
        out.append(lead + show(frame))
        out.append("  decoded " + decoded(frame)[0])
    for text in ("400000000095", "400000000094", "690000000000", "C00000000095", "110000090067", "4000000000", ""):
        frame = bytes.fromhex(text)
        answer, kind = decoded(frame)
        out.append(f"frame {text} {kind} {answer}")


def r1_decoded(index, text):
    frame = bytes.fromhex(text)
    bits = bits_of(frame)
    if bits[:2] != "00" or int(bits[2:8], 2) != index or int(bits[40:47], 2) != crc7(frame[:5]) or bits[47] != "1":
        return f"R1 {text} refused 07"
    status = int(bits[8:40], 2)
    return f"R1 {text} {status:08X}"


def short_status(status):
    return (status >> 23 & 1) << 15 | (status >> 22 & 1) << 14 | (status >> 19 & 1) << 13 | status & 0x1FFF


def statuses():
    for (index, status), known in STATUSES.items():
        assert show(response(index, status)) == known, (index, status)
        out.append(f"R1 {index:02X} {status:08X} {known}")
    out.append("R1 40 00000000 refused 08")
    for index, text in ((17, "110000090067"), (18, "110000090067"), (17, "110000090066"), (13, "0D00000E005D"),
                        (81, "510000000055")):
        out.append(r1_decoded(index, text))


def responses():
    register = closed(bytes(15))
    whole = b"\x3F" + register
    assert show(whole) == "3F" + "00" * 15 + "01"
    out.append("R2 " + show(whole))
    out.append(f"R2 {show(whole)} {'00' * 15} 00")
    wrong = whole[:16] + b"\0"
    out.append(f"R2 {show(wrong)}  07")
    out.append(f"R2 {show(wrong[:16])}  01")
    for ocr in (0x00FF8000, 0x80FF8000, 0xC0FF8000):
        out.append("R3 3F" + f"{ocr:08X}" + "FF")
    out.append("R3 3F80FF8000FF 80FF8000")
    out.append("R3 3F80FF80007F refused 07")
    for rca, status in ((1, 0x500), (0xFFFF, 0xFFFFFFFF)):
        frame = response(3, rca << 16 | short_status(status))
        out.append("R6 " + show(frame))
        out.append(f"  decoded {rca:04X} {short_status(status):04X}")
    assert "R6 0300010500A5" in out
    out.append("R7 " + show(response(8, 0x1AA)))
    assert out[-1] == "R7 08000001AA13"
    out.append("R7 refused 08")
    out.append("R7 08000001AA13 01 AA")
    out.append("R7 08FF0001AA13 refused 07")


def csd(c_size, mult, ccc, permanent, temporary):
    return closed(pack([
        (2, 0), (6, 0), (8, 0x26), (8, 0), (8, 0x32), (12, ccc), (4, 9), (1, 1), (1, 0), (1, 0), (1, 0), (2, 0),
        (12, c_size), (3, 0), (3, 0), (3, 0), (3, 0), (3, mult), (1, 1), (7, 31), (7, 0), (1, 1), (2, 0), (3, 0),
        (4, 9), (1, 0), (5, 0), (1, 0), (1, 0), (1, permanent), (1, temporary), (2, 0), (2, 0)]))


def registers():
    for key, known in CSDS.items():
        assert show(csd(*key)) == known, key
        out.append("CSD " + known)
        out.append("  again " + known)
    for _ in range(2):  # C_SIZE 4096, C_SIZE_MULT 8
        out.append("CSD refused 08")
        out.append("refused 07")  # sixteen zeros have no end bit
    for mid, oid, pnm, prv, psn, mdt in ((0, 0, 0, 0, 0, 0), (0x1B, 0x534D, 0x3030303030, 0x62, 0x12345678, 0x014)):
        image = closed(pack([(8, mid), (16, oid), (40, pnm), (8, prv), (32, psn), (4, 0), (12, mdt)]))
        out.append("CID " + show(image))
        out.append(f"  PRV {prv:02X} PSN {psn:08X} MDT {mdt:04X}")
    for _ in range(2):  # PNM of 41 bits, MDT of 13
        out.append("CID refused 08")
        out.append("refused 07")


def configuration():
    out.append("SCR 0201000000000000")
    out.append("SCR 0205000000000000")
    out.append("SCR refused 08")
    out.append("SCR 0201000000000000 SD_SPEC 02 SD_BUS_WIDTHS 01")
    out.append("SCR 0205FFFFFFFFFFFF SD_SPEC 02 SD_BUS_WIDTHS 05")
    out.append("SCR 02010000000000refused 01")
    out.extend(["OCR 00FF8000", "OCR 80FF8000", "OCR C0FF8000", "OCR refused 08"])
    out.extend(["OCR 80FF8000 window 01FF", "OCR BFFFFFFF window 01FF", "OCR refused 01"])


def packets():
    for text in ("0201000000000000", "0205000000000000", "00" * 64, "00000000", "00000001", "00000002", "00000003", "08"):
        payload = bytes.fromhex(text)
        out.append(f"packet {text}{crc16(payload):04X}")
    known = ["37C7", "F601", "0000", "0000", "1021", "2042", "3063", "8108"]
    assert [line[-4:] for line in out[-8:]] == known
    out.append("packet refused 01")
    out.append("packet refused 01")
    out.append("packet 000000011021 00000001 00")
    out.append("packet 000000011020  07")
    out.append("packet 088108 08 00")
    out.append("packet 8108  01")


def sizes():
    known = {4: (0, 0), 64: (15, 0), 8192: (2047, 0), 16384: (4095, 0), 16388: None, 16392: (2048, 1), 28800: (3599, 1),
             32784: (2048, 2), 59776: (3735, 2), 65528: None, 65536: (4095, 2), 2097152: (4095, 7)}
    for n in (0, 2, 4, 64, 8192, 16384, 16388, 16392, 28800, 32784, 59776, 65528, 65536, 121856, 246016, 2097152,
              2097153, 4194304):
        pairs = [(m, c) for m in range(8) for c in range(4096) if (c + 1) * 2 ** (m + 2) == n]
        pair = (min(pairs)[1], min(pairs)[0]) if pairs else None
        assert known.get(n, pair) == pair, n
        out.append(f"blocks {n:08X} " + (f"C_SIZE {pair[0]:04X} C_SIZE_MULT {pair[1]:02X}" if pair else "no pair"))


PROGRAMS = {"vectors_packets": (checks, packets), "vectors_commands": (commands, statuses), "vectors_responses": (responses,),
            "vectors_registers": (registers,), "vectors_scr_ocr": (configuration, sizes)}
CRATES = pathlib.Path(__file__).resolve().parent.parent / "crates"
for name, parts in PROGRAMS.items():
    out.clear()
    for part in parts:
        part()
    (CRATES / name / "stdout").write_text("\n".join(out) + "\n")
