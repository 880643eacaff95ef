#!/usr/bin/env python3
"""Writes the UTF-8 vectors and what a right program says of them.

crates/utf8_vectors/stdin has a vector to a line: its bytes in hexadecimal, " ; ", and where it is
from. crates/utf8_vectors/stdout is what the program must write: made here by Python's own UTF-8
decoder and Unicode database, not by the code under test.

Sources: The Unicode Standard, Table 3-7 (well-formed UTF-8 byte sequences); RFC 3629; Markus
Kuhn's "UTF-8 decoder capability and stress test" (the numbers are its sections); and texts of ASCII
around the length of a block.
"""
import pathlib
import sys
import unicodedata

ROWS = [
    [(0x00, 0x7F)],
    [(0xC2, 0xDF), (0x80, 0xBF)],
    [(0xE0, 0xE0), (0xA0, 0xBF), (0x80, 0xBF)],
    [(0xE1, 0xEC), (0x80, 0xBF), (0x80, 0xBF)],
    [(0xED, 0xED), (0x80, 0x9F), (0x80, 0xBF)],
    [(0xEE, 0xEF), (0x80, 0xBF), (0x80, 0xBF)],
    [(0xF0, 0xF0), (0x90, 0xBF), (0x80, 0xBF), (0x80, 0xBF)],
    [(0xF1, 0xF3), (0x80, 0xBF), (0x80, 0xBF), (0x80, 0xBF)],
    [(0xF4, 0xF4), (0x80, 0x8F), (0x80, 0xBF), (0x80, 0xBF)],
]

CITED = """
RFC 3629 section 7: 41 E2 89 A2 CE 91 2E | ED 95 9C EA B5 AD EC 96 B4 | E6 97 A5 E6 9C AC E8 AA 9E | EF BB BF F0 A3 8E B4
RFC 3629 section 10: C0 80 | 2F C0 AE 2E 2F
Kuhn 2.1, first of a length: 00 | C2 80 | E0 A0 80 | F0 90 80 80 | F8 88 80 80 80 | FC 84 80 80 80 80
Kuhn 2.2, last of a length: 7F | DF BF | EF BF BF | F7 BF BF BF | FB BF BF BF BF | FD BF BF BF BF BF
Kuhn 2.3, other boundaries: ED 9F BF | EE 80 80 | EF BF BD | F4 8F BF BF | F4 90 80 80
Kuhn 3.1, continuation bytes alone: 80 | BF | 80 BF | 80 BF 80 | 80 BF 80 BF
Kuhn 3.3, last byte missing: C0 | E0 80 | F0 80 80 | F8 80 80 80 | FC 80 80 80 80 | DF | EF BF | F7 BF BF | FB BF BF BF | FD BF BF BF BF
Kuhn 3.5, impossible bytes: FE | FF | FE FE FF FF
Kuhn 4.1, overlong 2F: C0 AF | E0 80 AF | F0 80 80 AF | F8 80 80 80 AF | FC 80 80 80 80 AF
Kuhn 4.2, largest overlong: C1 BF | E0 9F BF | F0 8F BF BF | F8 87 BF BF BF | FC 83 BF BF BF BF
Kuhn 4.3, overlong 0: C0 80 | E0 80 80 | F0 80 80 80 | F8 80 80 80 80 | FC 80 80 80 80 80
Kuhn 5.1, single surrogates: ED A0 80 | ED AD BF | ED AE 80 | ED AF BF | ED B0 80 | ED BE 80 | ED BF BF
Kuhn 5.2, paired surrogates: ED A0 80 ED B0 80 | ED A0 80 ED BF BF | ED AF BF ED B0 80 | ED AF BF ED BF BF
Kuhn 5.3, noncharacters: EF BF BE | EF BF BF
"""

# PropList.txt of the Unicode Character Database
WHITE_SPACE = """
0009..000D    ; White_Space # Cc   [5] <control-0009>..<control-000D>
0020          ; White_Space # Zs       SPACE
0085          ; White_Space # Cc       <control-0085>
00A0          ; White_Space # Zs       NO-BREAK SPACE
1680          ; White_Space # Zs       OGHAM SPACE MARK
2000..200A    ; White_Space # Zs  [11] EN QUAD..HAIR SPACE
2028          ; White_Space # Zl       LINE SEPARATOR
2029          ; White_Space # Zp       PARAGRAPH SEPARATOR
202F          ; White_Space # Zs       NARROW NO-BREAK SPACE
205F          ; White_Space # Zs       MEDIUM MATHEMATICAL SPACE
3000          ; White_Space # Zs       IDEOGRAPHIC SPACE
"""


def table_vectors():
    """Both ends of each range and their neighbours, the other bytes at their low and high ends."""
    for row in ROWS:
        name = " ".join(f"{low:02X}" if low == high else f"{low:02X}..{high:02X}" for low, high in row)
        for column, (low, high) in enumerate(row):
            for value in (low - 1, low, high, high + 1):
                for end in (0, 1):
                    text = [ends[end] for ends in row]
                    text[column] = value
                    if 0 <= value < 256:
                        yield bytes(text), f"Unicode Table 3-7, {name}, byte {column + 1}"


def cited_vectors():
    for line in CITED.strip().split("\n"):
        source, texts = line.split(": ")
        for text in texts.split(" | "):
            yield bytes.fromhex(text), source


def other_vectors():
    yield b"", "empty text"
    for whole in (b"\xc3\xa9", b"\xe2\x82\xac", b"\xf0\x9f\x98\x80"):
        for size in range(1, len(whole)):
            cut = whole[:size]
            yield cut, "truncated"
            yield cut + b"a", "truncated before ASCII"
            yield cut + whole, "truncated before a character"
            yield b"a" + cut, "truncated behind ASCII"
        yield whole + b"\x80", "one following byte too many"
        yield b"a" + whole + b"b" + whole, "mixed text"
    for lead in range(0xF5, 0x100):
        yield bytes([lead]), "never a byte of UTF-8"
        yield bytes([lead, 0x80, 0x80, 0x80]), "never a byte of UTF-8"
    for size in (31, 32, 33, 64):
        block = b"a" * size
        yield block, f"{size} bytes of ASCII"
        for at in sorted({0, 1, size // 2, 30, 31, 32, size - 1} & set(range(size))):
            yield block[:at] + b"\x80" + block[at + 1:], f"{size} bytes, 80 at {at}"
            yield block[:at] + b"\xff" + block[at + 1:], f"{size} bytes, FF at {at}"
        for whole in (b"\xc3\xa9", b"\xe2\x82\xac", b"\xf0\x9f\x98\x80"):
            yield block[:-1] + whole + block[:31], f"a character behind {size - 1} bytes of ASCII"
            yield block[:-1] + whole[:-1], f"a character cut behind {size - 1} bytes of ASCII"


def answer(text):
    try:
        decoded, stops = text.decode("utf-8", "strict"), None
    except UnicodeDecodeError as error:
        decoded, stops = text[:error.start].decode("utf-8", "strict"), error.start
    words = ["agree", "valid" if stops is None else "invalid"]
    words += [f"{ord(c):x}" for c in decoded]
    if stops is not None:
        return words + ["stops", str(stops)]
    places = [0]
    for c in decoded:
        places.append(places[-1] + len(c.encode("utf-8")))
    words += ["boundaries"] + [str(p) for p in places]
    return words + (["last", str(places[-2])] if decoded else [])


def white_space():
    """The codes of PropList.txt: those whose category is a separator, and six controls."""
    codes = []
    for line in WHITE_SPACE.strip().split("\n"):
        ends = [int(end, 16) for end in line.split()[0].split("..")]
        codes += range(ends[0], ends[-1] + 1)
    controls = {9, 10, 11, 12, 13, 0x85}
    assert codes == [c for c in range(0x110000) if c in controls or unicodedata.category(chr(c)) in ("Zs", "Zl", "Zp")]
    assert len(codes) == 25
    return codes


def main():
    folder = pathlib.Path(__file__).resolve().parents[2] / "crates" / "utf8_vectors"
    asked, answers, seen = [], [], set()
    for text, source in [*other_vectors(), *cited_vectors(), *table_vectors()]:
        if (text, source) in seen:
            continue
        seen.add((text, source))
        assert len(text) <= 128
        asked.append(" ".join(f"{b:02X}" for b in text) + " ; " + source + "\n")
        answers.append(" ".join(answer(text)) + " ; " + source + "\n")
    answers.append("white space " + " ".join(f"{c:x}" for c in white_space()) + "\n")
    assert len("".join(asked)) < 65536
    for name, lines in (("stdin", asked), ("stdout", answers)):
        made = "".join(lines)
        if "--check" in sys.argv:
            assert (folder / name).read_text() == made, name
        else:
            (folder / name).write_text(made)


main()
