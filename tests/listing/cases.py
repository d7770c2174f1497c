"""The cases of the listing programs: a name, the part's bytes, why it is here, and for some the listing written by hand.

The sheet is 12,240 by 15,840, the baseline increment 240 or 180, the rule width 14, the colour X'FF07' = 65287; every character is 144 wide.
"""

from typing import NamedTuple, Optional

PREFIX = bytes.fromhex("2BD3")

# TYPE, even, of the nineteen control sequences.
AMI, AMB, RMI, RMB, BLN = 0xC6, 0xD2, 0xC8, 0xD4, 0xD8
SIM, SBI, SIA, SVI, SCFL = 0xC0, 0xD0, 0xC2, 0xC4, 0xF0
STC, STO, BSU, ESU = 0x74, 0xF6, 0xF2, 0xF4
DIR, DBR, TRN, RPS, NOP = 0xE4, 0xE6, 0xDA, 0xEE, 0xF8


class Case(NamedTuple):
    """One part and why it is tried; `hand` is its listing from documents 01 and 02 at 240, without the PART line, and `eight` that at 180 if it is another."""

    name: str
    part: bytes
    why: str
    hand: Optional[str] = None
    eight: Optional[str] = None

    def at(self, increment: int) -> Optional[str]:
        """The listing by hand at an increment."""
        return self.eight if increment == 180 and self.eight is not None else self.hand


def sequence(kind: int, parameters: str = "") -> bytes:
    """LENGTH TYPE and parameters in hex: what stands in a chain."""
    body = bytes.fromhex(parameters)
    return bytes([len(body) + 2, kind]) + body


def alone(kind: int, parameters: str = "") -> bytes:
    """An unchained control sequence with its prefix."""
    return PREFIX + sequence(kind, parameters)


def chain(*sequences: tuple) -> bytes:
    """Sequences of one chain: every TYPE odd but the last's."""
    *before, last = sequences
    odd = [sequence(kind | 1, *rest) for kind, *rest in before]
    return PREFIX + b"".join(odd) + sequence(*last)


def text(characters: str) -> bytes:
    """A free run, in hex."""
    return bytes.fromhex(characters)


def t(i: int, b: int, characters: str, font: int = 0, colour: int = 65287, adjustment: int = 0, space: int = 65535) -> str:
    """A text line as document 01 orders its numbers; what isn't given is the descriptor's."""
    return f"T {i} {b} {font} {colour} {adjustment} {space} {characters}\n"


def both(name: str, kind: int, parameters: str, why: str, lines: str, end: tuple, before: bytes = b"", after: bytes = b"",
         eight: Optional[tuple] = None) -> list:
    """One sequence with an even TYPE, and with an odd one before a chained NOP, which is one element more.

    `lines` and `end` (I, B, elements, record bytes) are the listing of the first; `eight` has both at 180.
    """
    def listed(lines: str, end: tuple, more: int) -> str:
        i, b, elements, added = end
        return f"{lines}END {i} {b} {elements + more} {added}\n"

    def case(form: str, part: bytes, more: int) -> Case:
        return Case(f"{name}-{form}", before + part + after, f"{why}; TYPE {form}", listed(lines, end, more), eight and listed(*eight, more))

    return [case("even", alone(kind, parameters), 0), case("odd", chain((kind, parameters), (NOP,)), 1)]


# Pieces that many cases share; STILL makes every character advance by 0.
C1, C1C2, LINE, RULE = text("C1"), text("C1C2"), alone(BLN), alone(DIR, "0001")
AT_100 = alone(AMB, "0064") + alone(AMI, "0064")
STILL = alone(SIA, "009001")
ONE_RULE = "R 0 0 0 65287 1 14\n"

# Each of the nineteen, in both forms of TYPE, with a text that shows what it did.
EVERY_SEQUENCE = [
    *both("ami", AMI, "02D0", "AMI to 720", t(720, 0, "C1"), (864, 0, 2, 17), after=C1),
    *both("amb", AMB, "02D0", "AMB to 720", t(0, 720, "C1"), (144, 720, 2, 17), after=C1),
    *both("rmi", RMI, "FFF6", "RMI by -10", t(90, 100, "C1"), (234, 100, 4, 17), before=AT_100, after=C1),
    *both("rmb", RMB, "FFF6", "RMB by -10", t(100, 90, "C1"), (244, 90, 4, 17), before=AT_100, after=C1),
    *both("bln", BLN, "", "BLN: I to the margin, B by the increment", t(0, 0, "C1") + t(0, 240, "C1"), (144, 240, 3, 34), before=C1, after=C1,
          eight=(t(0, 0, "C1") + t(0, 180, "C1"), (144, 180, 3, 34))),
    *both("sim", SIM, "0032", "SIM 50, seen at the next line", t(50, 240, "C1"), (194, 240, 3, 17), after=LINE + C1,
          eight=(t(50, 180, "C1"), (194, 180, 3, 17))),
    *both("sbi", SBI, "0032", "SBI 50, seen at the next line", t(0, 50, "C1"), (144, 50, 3, 17), after=LINE + C1),
    *both("sia", SIA, "000A", "SIA 10 is added after every character", t(0, 0, "C1C2", adjustment=10), (308, 0, 2, 18), after=C1C2),
    *both("svi", SVI, "000A", "SVI 10 is the width of X'40'", t(0, 0, "C140C1", space=10), (298, 0, 2, 19), after=text("C140C1")),
    *both("scfl", SCFL, "03", "SCFL 3", t(0, 0, "C1", font=3), (144, 0, 2, 17), after=C1),
    *both("stc", STC, "FF00", "STC X'FF00' is 65280", t(0, 0, "C1", colour=65280), (144, 0, 2, 17), after=C1),
    *both("sto", STO, "00002D00", "STO changes nothing", t(0, 0, "C1"), (144, 0, 2, 17), after=C1),
    *both("bsu", BSU, "05", "BSU of a suppression that doesn't hide", t(0, 0, "C1"), (144, 0, 2, 17), after=C1),
    *both("esu", ESU, "7F", "ESU of the open suppression", t(0, 0, "C1"), (144, 0, 3, 17), before=alone(BSU, "7F"), after=C1),
    *both("dir", DIR, "05A0", "DIR along I, the descriptor's width", "R 100 100 0 65287 1440 14\n", (100, 100, 3, 16), before=AT_100),
    *both("dbr", DBR, "05A0", "DBR along B, the descriptor's width", "R 100 100 1 65287 1440 14\n", (100, 100, 3, 16), before=AT_100),
    *both("trn", TRN, "C1C2", "TRN and the run after it have a record each", t(0, 0, "C1C2") + t(288, 0, "C1"), (432, 0, 2, 35), after=C1),
    *both("rps", RPS, "0005C1C2", "RPS presents 5 bytes of a text of 2", t(0, 0, "C1C2C1C2C1"), (720, 0, 1, 21)),
    *both("nop", NOP, "2BD3FF", "NOP's bytes are ignored", t(0, 0, "C1"), (144, 0, 2, 17), after=C1),
]

# Shorter and longer LENGTHs, defaults, ends of ranges.
OPTIONAL_FORMS = [
    Case("sia-direction-0", alone(SIA, "000A00") + C1C2, "SIA of LENGTH 5, direction 00"),
    Case("sia-direction-1", alone(AMI, "0064") + alone(SIA, "000A01") + C1C2, "direction 01 is taken off and shown with a minus",
         t(100, 0, "C1C2", adjustment=-10) + "END 368 0 3 18\n"),
    Case("sia-default-amount", alone(SIA, "000A01") + alone(SIA, "FFFF01") + C1C2, "amount FFFF is the descriptor's 0; minus 0 is 0",
         t(0, 0, "C1C2") + "END 288 0 3 18\n"),
    Case("sia-default-direction", alone(SIA, "000A01") + alone(SIA, "000AFF") + C1C2, "direction FF is the descriptor's 0"),
    Case("sia-absent-direction", alone(SIA, "000A01") + alone(SIA, "000B") + C1C2, "an absent direction is 00"),
    Case("sia-greatest", alone(SIA, "0FFF") + C1, "amount 0FFF", t(0, 0, "C1", adjustment=4095) + "END 4239 0 2 17\n"),
    Case("svi-default", alone(SVI, "000A") + alone(SVI, "FFFF") + text("C140"), "FFFF makes the variable space absent",
         t(0, 0, "C140") + "END 288 0 3 18\n"),
    Case("svi-zero", alone(SVI, "0000") + text("40C140"), "a variable space of 0 is present", t(0, 0, "40C140", space=0) + "END 144 0 2 19\n"),
    Case("svi-greatest", alone(SVI, "0FFF") + text("4040"), "variable space 0FFF"),
    Case("svi-then-scfl", alone(SVI, "0014") + alone(SCFL, "02") + text("40C1"), "SCFL leaves the variable space alone",
         t(0, 0, "40C1", font=2, space=20) + "END 164 0 3 18\n"),
    Case("scfl-each", b"".join(alone(SCFL, f"{font:02X}") + C1 for font in (0, 1, 2, 3)), "fonts 00 to 03"),
    Case("scfl-default", alone(SCFL, "03") + alone(SCFL, "FF") + C1, "FF is the descriptor's font"),
    Case("stc-each", b"".join(alone(STC, colour) + C1 for colour in ("0000", "FF00", "FF07")), "the three colours are kept apart",
         t(0, 0, "C1", colour=0) + t(144, 0, "C1", colour=65280) + t(288, 0, "C1") + "END 432 0 6 51\n"),
    Case("stc-default", alone(STC, "0000") + alone(STC, "FFFF") + C1, "FFFF is the descriptor's colour"),
    Case("stc-precision", alone(STC, "00005A") + C1, "STC of LENGTH 5: the fifth byte is ignored", t(0, 0, "C1", colour=0) + "END 144 0 2 17\n"),
    Case("stc-rule", alone(STC, "FF00") + alone(DBR, "000A"), "a rule has the colour too", "R 0 0 1 65280 10 14\nEND 0 0 2 16\n"),
    Case("sto-defaults", alone(STO, "FFFF2D00") + alone(STO, "0000FFFF") + alone(STO, "FFFFFFFF"), "all ones in each half of STO"),
    Case("sim-default", alone(SIM, "0032") + alone(SIM, "FFFF") + LINE, "FFFF is the descriptor's margin", "END 0 240 3 0\n", "END 0 180 3 0\n"),
    Case("sim-greatest", alone(SIM, "7FFF") + LINE, "margin 7FFF: BLN moves past the sheet, which is no fault", "END 32767 240 2 0\n", "END 32767 180 2 0\n"),
    Case("sbi-default", alone(SBI, "0032") + alone(SBI, "FFFF") + LINE, "FFFF is the descriptor's increment", "END 0 240 3 0\n", "END 0 180 3 0\n"),
    Case("sbi-zero", alone(SBI, "0000") + LINE + LINE, "an increment of 0"),
    Case("bsu-ends", alone(BSU, "01") + C1 + alone(ESU, "01") + alone(BSU, "7F") + C1, "ids 01 and 7F; the second stays open"),
    Case("dir-width", alone(DIR, "05A0001400"), "DIR of LENGTH 7: width 20", "R 0 0 0 65287 1440 20\nEND 0 0 1 16\n"),
    Case("dir-default-width", alone(DIR, "05A0FFFFFF"), "width FFFFFF is the descriptor's"),
    Case("dir-no-length", alone(DIR, "0000"), "a rule of length 0 has no ink: an element without a record", "END 0 0 1 0\n"),
    Case("dir-no-width", alone(DIR, "000A000000"), "the same of width 0", "END 0 0 1 0\n"),
    Case("dbr-width", alone(DBR, "05A000C000"), "DBR of LENGTH 7: the greatest width"),
    Case("dbr-default-width", alone(DBR, "05A0FFFFFF"), "width FFFFFF is the descriptor's"),
    Case("dbr-no-length", alone(DBR, "0000FFFFFF"), "DBR of length 0", "END 0 0 1 0\n"),
    Case("dbr-no-width", alone(DBR, "000A000000"), "DBR of width 0", "END 0 0 1 0\n"),
    Case("rule-least-ink", alone(DIR, "0001000100"), "length 1 and width 1 are ink", "R 0 0 0 65287 1 1\nEND 0 0 1 16\n"),
    Case("no-ink-chained", chain((DIR, "000A"), (DIR, "0000"), (DBR, "000A000000"), (DBR, "000B")), "two rules with no ink between two with it",
         "R 0 0 0 65287 10 14\nR 0 0 1 65287 11 14\nEND 0 0 4 32\n"),
    Case("trn-empty", alone(TRN), "TRN of no text: an element without a record", "END 0 0 1 0\n"),
    Case("trn-prefix-inside", alone(TRN, "2BD3") + C1, "2B D3 inside TRN are text", t(0, 0, "2BD3") + t(288, 0, "C1") + "END 432 0 2 35\n"),
    Case("trn-longest", alone(SIA, "009001") + alone(TRN, bytes(range(253)).hex()), "TRN of 253 bytes at an advance of 0, all digits of the hex"),
    Case("rps-count-0", alone(RPS, "0000C1C2"), "count 0 presents nothing", "END 0 0 1 0\n"),
    Case("rps-no-text", alone(RPS, "0000"), "count 0 needs no text"),
    Case("rps-part-of-text", alone(RPS, "0002C1C2C3"), "a count below the text's length"),
    Case("rps-prefix-inside", alone(RPS, "00042BD3"), "2B D3 inside RPS are text", t(0, 0, "2BD32BD3") + "END 576 0 1 20\n"),
    Case("rps-longest-text", alone(SIA, "009001") + alone(RPS, "00FC" + bytes(range(251)).hex()), "251 bytes of text, one presented again"),
    Case("nop-empty", alone(NOP), "NOP of LENGTH 2", "END 0 0 1 0\n"),
    Case("nop-longest", alone(NOP, "2B" * 253) + C1, "NOP of 253 bytes"),
]

# Elements: runs, chains, what counts.
READINGS = [
    Case("empty", b"", "the empty part", "END 0 0 0 0\n"),
    Case("example", chain((AMI, "02D0"), (AMB, "01E0")) + text("C1C2"), "document 01's own example",
         t(720, 480, "C1C2") + "END 1008 480 3 18\n"),
    Case("run-of-one", C1, "one character", t(0, 0, "C1") + "END 144 0 1 17\n"),
    Case("run-of-zeros", bytes(3), "X'00' is a character like any other", t(0, 0, "000000") + "END 432 0 1 19\n"),
    Case("run-of-d3", text("D3D32A2CFF"), "a run ends at 2B only"),
    Case("runs-between", C1 + alone(NOP) + text("C2") + alone(NOP) + text("C3"), "a run on each side of a sequence"),
    Case("chain-open-at-end", PREFIX + sequence(BLN | 1), "a chain may stay open at the part's end", "END 0 240 1 0\n", "END 0 180 1 0\n"),
    Case("chain-of-bln", chain((BLN,), (BLN,), (BLN,)), "three in a chain", "END 0 720 3 0\n", "END 0 540 3 0\n"),
    Case("chain-length-2b", PREFIX + sequence(NOP | 1) + sequence(NOP, "AA" * 41) + C1, "in a chain X'2B' is a LENGTH of 43",
         t(0, 0, "C1") + "END 144 0 3 17\n"),
    Case("chain-no-prefix", PREFIX + sequence(BLN | 1) + alone(BLN), "in a chain 2B D3 is LENGTH 43 and AMB, which takes 4",
         "REFUSED 22 4\n"),
    Case("chain-text", chain((TRN, "C1"), (AMI, "0000"), (TRN, "C2")), "text in a chain, placed over other text",
         t(0, 0, "C1") + t(0, 0, "C2") + "END 144 0 3 34\n"),
    Case("every-type-chained", chain((AMI, "0064"), (AMB, "0064"), (RMI, "0001"), (RMB, "0001"), (SIM, "0005"), (SBI, "0006"), (SIA, "0007"),
                                     (SVI, "0008"), (SCFL, "01"), (STC, "FF00"), (STO, "00002D00"), (BSU, "09"), (DIR, "000A"), (DBR, "000B"),
                                     (TRN, "C140"), (RPS, "0003C2"), (ESU, "09"), (NOP,), (BLN,)), "all nineteen in one chain",
         "R 101 101 0 65280 10 14\nR 101 101 1 65280 11 14\n"
         + t(101, 101, "C140", font=1, colour=65280, adjustment=7, space=8)
         + t(267, 101, "C2C2C2", font=1, colour=65280, adjustment=7, space=8) + "END 5 107 19 69\n"),
    Case("many-runs", b"".join(text("C1") + alone(NOP) for _ in range(80)), "160 elements, 80 records"),
]

# Edges of the sheet and of the numbers.
POSITIONS = [
    Case("edge-i", alone(AMI, "2F40") + C1, "a character that ends on the sheet's edge", t(12096, 0, "C1") + "END 12240 0 2 17\n"),
    Case("edge-i-past", alone(AMI, "2F41") + C1, "one further", "REFUSED 27 6\n"),
    Case("edge-b", alone(AMB, "3DE0") + C1, "B on the sheet's edge", t(0, 15840, "C1") + "END 144 15840 2 17\n"),
    Case("edge-b-past", alone(AMB, "3DE1") + C1, "B one further", "REFUSED 27 6\n"),
    Case("line-of-85", bytes([0xC1] * 85), "85 characters fill a line", t(0, 0, "C1" * 85) + "END 12240 0 1 101\n"),
    Case("line-of-86", bytes([0xC1] * 86), "86 don't fit", "REFUSED 27 0\n"),
    Case("negative-i", alone(RMI, "FFFF"), "FFFF is -1: a position below 0", "END -1 0 1 0\n"),
    Case("negative-b", alone(RMB, "8000"), "B at -32,768", "END 0 -32768 1 0\n"),
    Case("negative-i-text", alone(RMI, "FFFF") + C1, "text at I = -1", "REFUSED 27 6\n"),
    Case("negative-b-text", alone(RMB, "FFFF") + C1, "text at B = -1", "REFUSED 27 6\n"),
    Case("negative-by-text", alone(SIA, "00FA01") + C1, "one character with 250 taken off leaves I at -106",
         t(0, 0, "C1", adjustment=-250) + "END -106 0 2 17\n"),
    Case("negative-in-text", alone(SIA, "00FA01") + text("C1C2"), "the second character starts at I = -106", "REFUSED 27 7\n"),
    Case("greatest-position", alone(AMI, "7FFF") + alone(AMB, "7FFF"), "moves go past the sheet", "END 32767 32767 2 0\n"),
    Case("position-past", alone(AMI, "7FFF") + alone(RMI, "0001"), "I past 32,767", "REFUSED 28 6\n"),
    Case("position-past-b", alone(AMB, "7FFF") + alone(RMB, "0001"), "B past 32,767", "REFUSED 28 6\n"),
    Case("position-below", alone(RMI, "8000") * 2, "I below -32,768", "REFUSED 28 6\n"),
    Case("position-by-bln", alone(AMB, "7FFF") + alone(BLN), "BLN past 32,767", "REFUSED 28 6\n"),
    Case("space-past", alone(AMI, "2F40") + alone(SVI, "0091") + text("40"), "a wide variable space passes the edge", "REFUSED 27 12\n"),
    Case("space-fits", alone(AMI, "2F41") + alone(SVI, "008F") + text("40"), "a narrow one ends on it"),
    Case("adjustment-past", alone(AMI, "2F40") + alone(SIA, "0FFF") + C1, "the last adjustment may leave the sheet",
         t(12096, 0, "C1", adjustment=4095) + "END 16335 0 3 17\n"),
    Case("rule-edge-i", alone(AMI, "2FCF") + alone(DIR, "0001"), "a rule that ends on the right edge", "R 12239 0 0 65287 1 14\nEND 12239 0 2 16\n"),
    Case("rule-past-i", alone(AMI, "2FD0") + alone(DIR, "0001"), "a rule past the right edge", "REFUSED 27 6\n"),
    Case("rule-edge-b", alone(AMB, "3DD2") + alone(DIR, "0001"), "a rule whose width ends on the lower edge",
         "R 0 15826 0 65287 1 14\nEND 0 15826 2 16\n"),
    Case("rule-past-b", alone(AMB, "3DD3") + alone(DIR, "0001"), "one whose width passes it", "REFUSED 27 6\n"),
    Case("dbr-edge-i", alone(AMI, "2FC2") + alone(DBR, "3DE0"), "DBR down the whole sheet, its width ending on the right edge",
         "R 12226 0 1 65287 15840 14\nEND 12226 0 2 16\n"),
    Case("dbr-past-i", alone(AMI, "2FC3") + alone(DBR, "0001"), "its width passes the right edge", "REFUSED 27 6\n"),
    Case("dbr-past-b", alone(AMB, "0001") + alone(DBR, "3DE0"), "its length passes the lower edge", "REFUSED 27 6\n"),
    Case("no-ink-edge", alone(AMI, "2FD0") + alone(AMB, "3DD2") + alone(DIR, "0000"), "a rule with no ink in the lower right corner", "END 12240 15826 3 0\n"),
    Case("no-ink-past-i", alone(AMI, "2FD1") + alone(DIR, "0000"), "a rule of length 0 past the right edge is outside all the same", "REFUSED 27 6\n"),
    Case("no-ink-past-b", alone(AMB, "3DD3") + alone(DIR, "0000"), "one whose width passes the lower edge", "REFUSED 27 6\n"),
    Case("no-ink-past-length", alone(AMB, "0001") + alone(DBR, "3DE0000000"), "a rule of width 0 whose length passes it", "REFUSED 27 6\n"),
    Case("rule-negative", alone(RMI, "FFFF") + alone(DIR, "0005"), "a rule that starts at I = -1", "REFUSED 27 6\n"),
]

# How many lines the sheet and the numbers have, at six to the inch and at eight.
LINES = [
    Case("lines-66", LINE * 66 + C1, "66 lines of 240 reach the lower edge",
         t(0, 15840, "C1") + "END 144 15840 67 17\n", t(0, 11880, "C1") + "END 144 11880 67 17\n"),
    Case("lines-67", LINE * 67 + C1, "67 of them pass it", "REFUSED 27 268\n", t(0, 12060, "C1") + "END 144 12060 68 17\n"),
    Case("lines-88", LINE * 88 + C1, "88 lines of 180 reach it", "REFUSED 27 352\n", t(0, 15840, "C1") + "END 144 15840 89 17\n"),
    Case("lines-89", LINE * 89 + C1, "89 of them pass it", "REFUSED 27 356\n"),
    Case("lines-136", LINE * 136, "136 lines of 240 are within the positions", "END 0 32640 136 0\n", "END 0 24480 136 0\n"),
    Case("lines-137", LINE * 137, "the next is past them", "REFUSED 28 544\n", "END 0 24660 137 0\n"),
    Case("lines-182", LINE * 182, "182 lines of 180 are within them", "REFUSED 28 544\n", "END 0 32760 182 0\n"),
    Case("lines-183", LINE * 183, "and the next is past them", "REFUSED 28 544\n", "REFUSED 28 728\n"),
    Case("lines-of-its-own", alone(SBI, "0064") + LINE * 3 + C1, "a part that sets its own increment", t(0, 300, "C1") + "END 144 300 5 17\n"),
    Case("lines-set-back", alone(SBI, "0032") + LINE + alone(SBI, "FFFF") + LINE + C1, "and one that goes back to the descriptor's",
         t(0, 290, "C1") + "END 144 290 5 17\n", t(0, 230, "C1") + "END 144 230 5 17\n"),
]

# Codes 20 to 29, their order within a sequence, and the first element at fault. In a part a `>` stands before the byte that the refusal points at:
# with 21 the one after X'2B', with 22 LENGTH, with 23 TYPE, with 24 and 25 the first byte of the first parameter at fault, else the element's first.
REFUSALS = [
    ("cut-2b", ">2B", 20, "a lone X'2B'"),
    ("cut-2bd3", ">2BD3", 20, "no LENGTH"),
    ("cut-length", "C1 >2BD304", 20, "no TYPE"),
    ("cut-parameters", ">2BD304C67F", 20, "one parameter byte of two"),
    ("cut-trn", ">2BD304DAC1", 20, "TRN cut"),
    ("cut-nop", ">2BD3FFF800", 20, "the longest NOP, cut"),
    ("cut-chain", "2BD302D9 >02", 20, "a chained LENGTH without TYPE"),
    ("class-missing", "C1 2B>C1", 21, "X'2B' before another byte"),
    ("class-2b", "2B>2BD302D8", 21, "X'2B' twice"),
    ("length-0", "2BD3>00D8", 22, "LENGTH 0"),
    ("length-1", "2BD3>01D8", 22, "LENGTH 1"),
    ("length-bln", "2BD3>03D800", 22, "BLN of LENGTH 3"),
    ("length-ami", "2BD3>03C600", 22, "AMI of LENGTH 3"),
    ("length-sia", "2BD3>06C200010000", 22, "SIA of LENGTH 6"),
    ("length-stc", "2BD3>067400000000", 22, "STC of LENGTH 6"),
    ("length-sto", "2BD3>04F60000", 22, "STO of LENGTH 4"),
    ("length-dir-5", "2BD3>05E4000100", 22, "DIR of LENGTH 5"),
    ("length-dbr-6", "2BD3>06E600010000", 22, "DBR of LENGTH 6"),
    ("length-rps", "2BD3>03EE00", 22, "RPS of LENGTH 3"),
    ("type-ovs", "2BD302>72", 23, "OVS isn't taken"),
    ("type-usc", "2BD303>7600", 23, "USC isn't taken"),
    ("type-tbm", "2BD304>7800", 23, "TBM isn't taken, cut or not"),
    ("type-sec", "2BD302>80", 23, "SEC isn't taken"),
    ("type-glyphs", "2BD304>8B0000", 23, "a PT4 glyph sequence isn't taken"),
    ("type-ff", "2BD302>FF", 23, "TYPE FF is FE with the chain bit"),
    ("value-ami", "2BD304C6>8000", 24, "AMI above 7FFF"),
    ("value-ami-ffff", "2BD304C6>FFFF", 24, "AMI has no default"),
    ("value-amb", "2BD304D2>8000", 24, "AMB above 7FFF"),
    ("value-sim", "2BD304C0>8000", 24, "SIM above 7FFF"),
    ("value-sbi", "2BD304D0>FFFE", 24, "SBI just under the default"),
    ("value-sia", "2BD304C2>1000", 24, "SIA above 0FFF"),
    ("value-sia-amount", "2BD305C2>100001", 24, "SIA above 0FFF, its direction good"),
    ("value-sia-direction", "2BD305C20001>02", 24, "SIA direction 02"),
    ("value-sia-direction-fe", "2BD305C2FFFF>FE", 24, "SIA's amount by default, its direction just under the default"),
    ("value-sia-both", "2BD305C2>100002", 24, "of two parameters at fault the first"),
    ("value-svi", "2BD304C4>1000", 24, "SVI above 0FFF"),
    ("value-stc", "2BD30474>0001", 24, "a colour the hub doesn't take"),
    ("value-stc-precision", "2BD30574>000100", 24, "the same in LENGTH 5"),
    ("value-sto-i", "2BD306F6>2D002D00", 24, "I at 90 degrees"),
    ("value-sto-b", "2BD306F60000>0000", 24, "B at 0 degrees"),
    ("value-sto-b-low", "2BD306F6FFFF>2D01", 24, "B's second byte alone: the axis from its first"),
    ("value-sto-both", "2BD306F6>2D000000", 24, "both axes: I is the first"),
    ("value-bsu-0", "2BD303F2>00", 24, "suppression 00"),
    ("value-esu-80", "2BD303F4>80", 24, "suppression 80"),
    ("value-dir", "2BD304E4>8000", 24, "DIR's length above 7FFF"),
    ("value-dir-length", "2BD307E4>8000000E00", 24, "the same, its width good"),
    ("value-dir-both", "2BD307E4>800000C100", 24, "DIR's length and width: the length is the first"),
    ("value-dbr-ffff", "2BD304E6>FFFF", 24, "a rule's length has no default"),
    ("value-dbr-length", "2BD307E6>FFFFFFFFFF", 24, "DBR all ones: the width is by default, the length isn't"),
    ("value-dbr-both", "2BD307E6>8000000001", 24, "DBR's length and its width's fraction: the length is the first"),
    ("value-width", "2BD307E40001>00C100", 24, "a width above 00C0"),
    ("value-width-dbr", "2BD307E60001>00C100", 24, "the same of DBR"),
    ("value-fraction", "2BD307E40001>000101", 24, "a fraction of a unit alone: the width from its first byte"),
    ("value-fraction-dbr", "2BD307E60001>00C001", 24, "the same of DBR, at the greatest width"),
    ("value-width-half", "2BD307E60001>FFFF00", 24, "the width's default in two bytes only"),
    ("value-width-fe", "2BD307E40001>FFFFFE", 24, "its last byte just under the default"),
    ("value-rps", "2BD305EE>8000C1", 24, "RPS count above 7FFF"),
    ("value-rps-no-text", "2BD304EE>0001", 24, "RPS of one character and no text: the count"),
    ("value-rps-both", "2BD304EE>8000", 24, "a count above 7FFF and no text"),
    ("font-04", "2BD303F0>04", 25, "font 04"),
    ("font-fe", "2BD303F0>FE", 25, "font FE"),
    ("pairing-esu", ">2BD303F405", 26, "ESU with none open"),
    ("pairing-bsu", "2BD303F205 >2BD303F205", 26, "BSU while the same is open"),
    ("pairing-other", "2BD303F205 >2BD303F406", 26, "ESU of another id"),
    ("order-length-type", "2BD3>0072", 22, "LENGTH under 2 before the unknown type"),
    ("order-type-length", "2BD309>72", 23, "the unknown type before the cut"),
    ("order-length-cut", "2BD3>05E40001", 22, "the type's LENGTH before the cut"),
    ("order-cut-value", ">2BD305C2FFFE", 20, "the cut before the value"),
    ("order-first-element", "2BD304C62F41 >C1 2BD30272", 27, "the first element at fault gives the answer"),
    ("order-all-or-nothing", "C1C2 2BD302D8 C3 >2BD302", 20, "text before a fault isn't listed"),
]

# The same in a chain, where LENGTH is an element's first byte.
IN_CHAIN = [
    ("in-chain-cut", "2BD302F9 >04C67F", 20, "one parameter byte of two"),
    ("in-chain-2b", "2BD302F9 2B>2B", 23, "X'2B' is a LENGTH there, and as a TYPE unknown: no 21"),
    ("in-chain-length-0", "2BD302F9 >0072", 22, "LENGTH 0 before the unknown type"),
    ("in-chain-length-1", "2BD302F9 >01D8", 22, "LENGTH 1"),
    ("in-chain-length", "2BD302F9 >03C600", 22, "AMI of LENGTH 3"),
    ("in-chain-length-cut", "2BD302F9 >05E40001", 22, "DIR of LENGTH 5, cut"),
    ("in-chain-type", "2BD302F9 02>72", 23, "OVS"),
    ("in-chain-type-odd", "2BD302F9 03>7700", 23, "USC that would go on with the chain"),
    ("in-chain-type-cut", "2BD302F9 FF>72", 23, "the unknown type before the cut"),
    ("in-chain-ami", "2BD302F9 04C6>8000", 24, "AMI above 7FFF"),
    ("in-chain-amb", "2BD302F9 04D2>FFFF", 24, "AMB has no default"),
    ("in-chain-sim", "2BD302F9 04C0>8000", 24, "SIM above 7FFF"),
    ("in-chain-sbi", "2BD302F9 04D0>8000", 24, "SBI above 7FFF"),
    ("in-chain-sia", "2BD302F9 05C2>100002", 24, "both of SIA"),
    ("in-chain-sia-direction", "2BD302F9 05C20001>02", 24, "SIA direction 02"),
    ("in-chain-svi", "2BD302F9 04C4>1000", 24, "SVI above 0FFF"),
    ("in-chain-stc", "2BD302F9 0474>FF01", 24, "a colour the hub doesn't take"),
    ("in-chain-sto-i", "2BD302F9 06F6>5A002D00", 24, "I at 180 degrees"),
    ("in-chain-sto-b", "2BD302F9 06F60000>8700", 24, "B at 270 degrees"),
    ("in-chain-bsu-0", "2BD302F9 03F2>00", 24, "suppression 00"),
    ("in-chain-esu-ff", "2BD302F9 03F4>FF", 24, "suppression FF"),
    ("in-chain-dir", "2BD302F9 07E4>800000C100", 24, "both of DIR"),
    ("in-chain-dir-width", "2BD302F9 07E40001>00C100", 24, "DIR's width above 00C0"),
    ("in-chain-dbr", "2BD302F9 04E6>8000", 24, "DBR's length above 7FFF"),
    ("in-chain-dbr-fraction", "2BD302F9 07E60001>000101", 24, "a fraction of a unit alone"),
    ("in-chain-rps", "2BD302F9 05EE>8000C1", 24, "RPS count above 7FFF"),
    ("in-chain-rps-no-text", "2BD302F9 04EE>0001", 24, "RPS of one character and no text"),
    ("in-chain-font", "2BD302F9 03F0>04", 25, "font 04"),
    ("in-chain-third", "2BD304C70064 04D30064 03F0>FE", 25, "the third of a chain"),
    ("in-chain-bsu", "2BD303F305 >03F206", 26, "BSU while another is open"),
    ("in-chain-esu", "2BD302F9 >03F405", 26, "ESU with none open"),
    ("in-chain-trn-outside", "2BD304C72F41 >03DAC1", 27, "TRN past the edge"),
    ("in-chain-rps-outside", "2BD304C72F41 >05EE0001C1", 27, "RPS past the edge"),
    ("in-chain-rule-outside", "2BD304C72FD0 >04E40001", 27, "a rule past the edge"),
    ("in-chain-move", "2BD304C98000 >04C88000", 28, "I below -32,768"),
    ("in-chain-line", "2BD304D37FFF >02D8", 28, "BLN past 32,767"),
]

# And behind other elements.
BEHIND = [
    ("behind-class", "C1 2BD304DA2BC1 2B>D2", 21, "X'2B' is text in TRN, and behind it begins a sequence"),
    ("behind-class-chain", "2BD302F9 02F8 2B>C1", 21, "behind a chain's end"),
    ("behind-length", "C1C2 2BD304C60064 2BD3>03D800", 22, "BLN of LENGTH 3"),
    ("behind-type", "2BD302D8 C1 2BD302>72", 23, "OVS"),
    ("behind-value", "C1 2BD304C70064 04D20064 C2 2BD304C6>8000", 24, "AMI above 7FFF"),
    ("behind-direction", "C1C2 2BD304C70064 05C2000A>02", 24, "the worked example of docs/HOSTS.md"),
    ("behind-axis", "C1 2BD302D8 2BD306F60000>0000", 24, "B at 0 degrees"),
    ("behind-width", "C1 2BD302D8 2BD307E40001>00C100", 24, "DIR's width above 00C0"),
    ("behind-fraction", "C1 2BD302D9 02D8 2BD307E60001>000001", 24, "a fraction of a unit alone"),
    ("behind-count", "C1 2BD305EE0002C1 2BD304EE>0001", 24, "RPS of one character and no text"),
    ("behind-font", "C1 2BD303F001 C2 2BD303F0>04", 25, "font 04"),
    ("behind-esu", "C1 >2BD303F405", 26, "ESU with none open"),
    ("behind-trn-outside", "C1 2BD304C62F41 >2BD303DAC1", 27, "TRN past the edge: its first byte, not its text's"),
    ("behind-rps-outside", "2BD304C62F41 >2BD306EE0002C1C2", 27, "RPS past the edge"),
    ("behind-move", "C1 2BD304C67FFF >2BD304C80001", 28, "I past 32,767"),
]

# The record area and the part's length.
ROOMS = [
    Case("area-full", RULE * 256, "256 rules fill the area", ONE_RULE * 256 + "END 0 0 256 4096\n"),
    Case("area-past", RULE * 257, "the next has no room", "REFUSED 29 1536\n"),
    Case("area-full-text", STILL + alone(RPS, "0FF0C1"), "one record of 4,096 bytes at an advance of 0",
         t(0, 0, "C1" * 4080, adjustment=-144) + "END 0 0 2 4096\n"),
    Case("area-past-text", STILL + alone(RPS, "0FF1C1"), "one of 4,097", "REFUSED 29 7\n"),
    Case("area-past-rps", STILL + alone(RPS, "7FFFC1"), "the greatest count", "REFUSED 29 7\n"),
    Case("area-past-chain", chain(*[(DIR, "0001")] * 257), "257 rules in a chain: 2 bytes and 4 for each of 256 before the last", "REFUSED 29 1026\n"),
    Case("area-full-silent", RULE * 256 + alone(BLN) + alone(TRN), "a full area takes elements without records",
         ONE_RULE * 256 + "END 0 240 258 4096\n", ONE_RULE * 256 + "END 0 180 258 4096\n"),
    Case("area-full-no-ink", RULE * 256 + alone(DIR, "0000") + alone(DBR, "000A000000"), "and rules with no ink", ONE_RULE * 256 + "END 0 0 258 4096\n"),
    Case("area-past-no-ink", RULE * 256 + alone(DIR, "0000") + RULE, "behind one of which a rule with ink has no room", "REFUSED 29 1542\n"),
    Case("long-8192", alone(NOP) * 2047 + text("C1C2C3C4"), "the longest part", t(0, 0, "C1C2C3C4") + "END 576 0 2048 20\n"),
    Case("long-8192-cut", alone(NOP) * 2047 + text("C1C2C32B"), "a fault at the longest part's last byte", "REFUSED 20 8191\n"),
    Case("long-8192-class", alone(NOP) * 2047 + text("C1C22BC1"), "its last byte is the one after X'2B'", "REFUSED 21 8191\n"),
    Case("long-8192-type", alone(NOP) * 2047 + text("2BD30272"), "its last byte is a TYPE", "REFUSED 23 8191\n"),
    Case("long-8192-value", alone(NOP) * 2046 + text("C1C2C3") + alone(BSU, "00"), "its last byte is a parameter", "REFUSED 24 8191\n"),
    Case("long-8192-font", alone(NOP) * 2046 + text("C1C2C3") + alone(SCFL, "04"), "its last byte is a font", "REFUSED 25 8191\n"),
    Case("long-8193", alone(NOP) * 2048 + text("C1"), "one byte more", "REFUSED 19 0\n"),
    Case("long-20000", alone(NOP) * 5000, "reading stops at 8,193 bytes", "REFUSED 19 0\n"),
    Case("long-fault", text("2BC1") * 5000, "19 goes before every element", "REFUSED 19 0\n"),
]


def refused(name: str, marked: str, code: int, why: str) -> Case:
    """A part in hex, and the refusal that points at the byte behind its mark."""
    before, after = map(bytes.fromhex, marked.split(">"))
    return Case(name, before + after, why, f"REFUSED {code} {len(before)}\n")


def cases() -> list:
    """All of them; a name stands once."""
    refusals = [refused(*row) for row in REFUSALS + IN_CHAIN + BEHIND]
    every = EVERY_SEQUENCE + OPTIONAL_FORMS + READINGS + POSITIONS + LINES + refusals + ROOMS
    names = [case.name for case in every]
    assert len(set(names)) == len(names), "a name stands twice"
    return every
