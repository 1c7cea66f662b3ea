"""Mistakes of the example encoder that tools/conform does not list, each as a change of examples/conform/encoder.h or chain.h.

Each has what its diagnosis must say, if all steps are answered, and of the bits that are sent alone."""

from __future__ import annotations

import dataclasses

# Nothing that helps is said: the mistake is found, and neither named nor told by a condition or a shift.
NOTHING = ""


@dataclasses.dataclass(frozen=True)
class Planted:
    """A mistake: its name, what is said of it by all steps and by `sent`, and the changes: a text that stands in the file once, and
    its new one. `is_told` is whether this is a shift or numbers, and no name, entry, polynomial or exact condition."""

    name: str
    said: tuple[str, str]
    changes: tuple[tuple[str, str], ...]
    is_told: bool = False


def planted(name: str, said: str | tuple[str, str], *texts: str) -> Planted:
    """A mistake, of the old and the new text of each change in turn; `said` is one for both, or one for each."""
    return Planted(name, (said, said) if isinstance(said, str) else said, tuple(zip(texts[::2], texts[1::2])))


def told(name: str, said: str | tuple[str, str], *texts: str) -> Planted:
    """The same of one of which a shift or numbers are told."""
    return dataclasses.replace(planted(name, said, *texts), is_told=True)


TB_CRC = "put_crc(made.b, it->a, plan->b - it->a, it->a > 3824 ? 0x864CFB : 0x1021);"
CODE_CRC = "put_crc(to, part, 24, 0x800063);"
REST = "    unsigned rest = 0;\n    for (unsigned i = 0; i < count; i++) {"
PARITY = "bits[count + i] = rest >> (length - 1 - i) & 1;"
IN_BIT = "unsigned out = rest >> (length - 1) ^ bits[i];"

CRC = (
    planted("crc16-8005", "CRC16: the generator polynomial is 0x8005 in place of 0x1021", TB_CRC,
            TB_CRC.replace("0x1021", "0x8005")),
    planted("crc24a-typed", "CRC24A: the generator polynomial is 0x864cfe in place of 0x864cfb", TB_CRC,
            TB_CRC.replace("CFB", "CFE")),
    planted("crc24b-typed", "CRC24B: the generator polynomial is 0x800036 in place of 0x800063", CODE_CRC,
            CODE_CRC.replace("63", "36")),
    planted("crc16-1d0f", "CRC16: the register begins with 0x1d0f in place of 0", REST,
            REST.replace("rest = 0", "rest = length == 16 ? 0x1D0F : 0")),
    planted("crc24-openpgp", "CRC24A: the register begins with 0xb704ce in place of 0", REST,
            REST.replace("rest = 0", "rest = length == 24 ? 0xB704CE : 0")),
    planted("crc24a-inverted", "CRC24A: 0xffffff is added to the parity bits", PARITY,
            "bits[count + i] = (rest >> (length - 1 - i) & 1) ^ (polynomial == 0x864CFB);"),
    planted("crc-octets-swapped", "CRC16: the octets of the parity bits are sent lowest first", PARITY,
            "bits[count + i] = rest >> ((i / 8) * 8 + 7 - i % 8) & 1;"),
    planted("crc-reflected", "the bits of each octet go in lowest first, the parity bits are sent lowest first",
            IN_BIT, "unsigned first = i / 8 * 8, last = count - first < 8 ? count : first + 8;\n"
            "        unsigned out = rest >> (length - 1) ^ bits[first + last - 1 - i];",
            PARITY, "bits[count + i] = rest >> i & 1;"),
    planted("crc-backwards", "the bits go in backwards", IN_BIT, "unsigned out = rest >> (length - 1) ^ bits[count - 1 - i];"),
    planted("crc24a-only-whole", "CRC24A: the generator polynomial is 0x800063 in place of 0x864cfb", TB_CRC,
            TB_CRC.replace("0x864CFB", "0x800063")),
)

READ = "    while (read_case(&it)) {"
TO = "struct graph *to = &graphs[it[0]];"
TAKEN = "    memcpy(entry->values, it + 3, sizeof entry->values);\n    return 1;"


def entry(name: str, said: str, condition: str, change: str) -> Planted:
    """A change of the entries of the table as they are read."""
    changed = f"    if ({condition})\n        {change};\n    return 1;"
    return planted(name, said, TAKEN, TAKEN.replace("    return 1;", changed))


def after_reading(name: str, said: str, change: str) -> Planted:
    """A change of the table when it is read."""
    return planted(name, said, READ, f"    {change}\n{READ}")


def core_rows(name: str, graph: int, rows: tuple[int, int], columns: int) -> Planted:
    """Two of rows 0 to 3 that are exchanged in the first columns."""
    one, two = rows
    condition = f"it[0] == {graph} && it[2] < {columns} && (it[1] == {one} || it[1] == {two})"
    change = f"if ({condition})\n        it[1] = {one + two} - it[1];\n    {TO}"
    return planted(name, f"rows {one} and {two} of base graph {graph} are exchanged", TO, change)


ENTRIES = (
    entry("entry-row-5", r"table entry graph 1, row 5, column \d+, set 3 acts as \d+( or \d+)* in place of \d+",
          "it[0] == 1 && it[1] == 5 && to->count[5] == 1", "entry->values[3] ^= 9"),
    entry("entry-core", r"table entry graph 1, row 2, column \d+, set 6 acts as \d+( or \d+)* in place of \d+",
          "it[0] == 1 && it[1] == 2 && to->count[2] == 2", "entry->values[6] ^= 6"),
    entry("entry-core-2", r"table entry graph 2, row 0, column \d+, set 0 acts as \d+( or \d+)* in place of \d+",
          "it[0] == 2 && it[1] == 0 && to->count[0] == 1", "entry->values[0] ^= 5"),
    entry("entry-row-30", r"table entry graph 2, row 30, column \d+, set 5 acts as \d+( or \d+)* in place of \d+",
          "it[0] == 2 && it[1] == 30 && to->count[30] == 1", "entry->values[5] ^= 33"),
    entry("entry-two-sets", r"table entry graph 1, row 9, column \d+, sets? \d(, 4)? acts as",
          "it[0] == 1 && it[1] == 9 && to->count[9] == 1", "entry->values[1] ^= 3, entry->values[4] ^= 12"),
    after_reading("entry-missing", r"table entry graph 1, row 8, column \d+, all sets is missing",
                  "graphs[1].entries[8][0] = graphs[1].entries[8][--graphs[1].count[8]];"),
    after_reading("entry-missing-core", r"table entry graph 2, row 3, column \d+, all sets is missing",
                  "graphs[2].entries[3][0] = graphs[2].entries[3][--graphs[2].count[3]];"),
    entry("entry-column", r"table entry graph 2, row 20, column \d+, all sets stands at column \d+",
          "it[0] == 2 && it[1] == 20 && to->count[20] == 1", "entry->column = entry->column ? 0 : 1"),
    after_reading("rows-exchanged", "rows 12 and 13 of base graph 2 are exchanged",
                  "struct graph kept = graphs[2];\n"
                  "    for (unsigned row = 12; row < 14; row++) {\n"
                  "        memcpy(graphs[2].entries[row], kept.entries[25 - row], sizeof kept.entries[row]);\n"
                  "        graphs[2].count[row] = kept.count[25 - row];\n"
                  "        for (unsigned e = 0; e < graphs[2].count[row]; e++)\n"
                  "            if (graphs[2].entries[row][e].column >= 14)\n"
                  "                graphs[2].entries[row][e].column = 10 + row;\n"
                  "    }"),
    core_rows("core-rows-0-2", 1, (0, 2), 23),
    core_rows("core-rows-1-2", 1, (1, 2), 26),
    core_rows("core-rows-1-3", 2, (1, 3), 10),
    entry("set-from-another", "set 6 of base graph 1 is read from another column: set 5's values give all bits",
          "it[0] == 1", "entry->values[6] = entry->values[5]"),
    entry("set-column-lost", "set 7 of base graph 2 is read from another column: set 0's values give all bits",
          "it[0] == 2", "entry->values[7] = entry->values[0]"),
)

SHIFT = "return value % z;"
SUM = "sum[t] ^= word[it->column * plan->z + (t + shift) % plan->z];"
ROUND = "e[k++] = d[(k0 + j) % ncb];"
PLACE = "f[i + j * qm] = e[i * (count / qm) + j];"
FIRST = "memcpy(word, bits, plan->kdash);"

TURN = "unsigned shift = shift_of(it->values[plan->set], plan->z);"
EXTENSION = "for (unsigned row = 4; row < graphs[plan->graph].rows; row++)"
MARKED = "memset(word + plan->kdash, filler_in_d(),"

CODING = (
    planted("words-of-32", "exactly where (parity bits are sent and )?Zc is no multiple of 32", TURN,
            TURN + "\n        if (plan->z % 32)\n            shift = 0;"),
    planted("last-octet-of-column", "exactly where (parity bits are sent and )?Zc is no multiple of 8", SUM,
            "if (t < plan->z / 8 * 8)\n                " + SUM),
    planted("columns-of-256", "exactly where (parity bits are sent and )?Zc >= 288", SUM,
            SUM.replace("(t + shift)", "((t + shift) % plan->z & 255)")),
    planted("core-unrotated-set-2", r"core-unrotated[^\x00]*exactly where set 2|exactly where set 2[^\x00]*core-unrotated",
            "back = odd_shift(plan);", "back = plan->set == 2 ? 0 : odd_shift(plan);"),
    planted("last-row-left-out", "row 41 of base graph 2 gives zeros", EXTENSION,
            EXTENSION.replace(".rows;", ".rows - (plan->graph == 2);")),
    planted("fillers-sent-as-ones", ("exactly where there are fillers", "exactly where fillers are passed"), MARKED,
            MARKED.replace("filler_in_d()", "1")),
    planted("fillers-one-graph-2", "exactly where base graph 2", FIRST,
            FIRST + "\n    if (plan->graph == 2)\n        memset(word + plan->kdash, 1, plan->k - plan->kdash);"),
    planted("shift-left-odd", "exactly where Zc is odd", SHIFT, "return z % 2 ? (z - value % z) % z : value % z;"),
    planted("punctured-kept-small", r"exactly where Zc <= \d+", "memcpy(d, word + 2 * plan->z, plan->n);",
            "memcpy(d, word + (plan->z < 16 ? 0 : 2 * plan->z), plan->n);"),
)

ZC = "for (it.z = 2; set_of(it.z) == 8 || it.kb * it.z < it.kdash; it.z++)"
ODD = "{1, 3, 5, 7, 9, 11, 13, 15}"

SEGMENTATION = (
    planted("kb-460", "the limit 560 of B is from 424 to 479", "over > 560", "over > 460"),
    planted("z-208-missing", ("exactly where Zc = 208", "exactly where Zc = 208"), ZC, ZC.replace("set_of(it.z) == 8", (
        "set_of(it.z) == 8 || it.z == 208"))),
    planted("sets-13-15", ("the set indexes 6 and 7 are exchanged",
                           "set 6 of base graph 1 is read from another column: set 7's values"),
            ODD, "{1, 3, 5, 7, 9, 11, 15, 13}"),
    planted("graph-392", "the limit 292 of A is from 384 to 463", "a <= 292", "a <= 392"),
    planted("bits-of-code-blocks-reversed", "of the bits of the code blocks: they are in reverse",
            "memcpy(to, b + r * part, part);", "memcpy(to, b + (plan->c - 1 - r) * part, part);"),
)

START = "return starts[plan->graph][rv] * ncb / plan->n * plan->z;"
LIMIT = "it->limited ? (unsigned)(3ull * it->lbrm / (2 * plan->c)) : plan->n"
STARTS = "{0, 17, 33, 56}, {0, 13, 25, 43}"

BUFFER = (
    planted("k0-57", "k0 of rv = 3 by base graph 1 is not made of 56: 57", STARTS, STARTS.replace("56", "57")),
    planted("k0-24", "k0 of rv = 2 by base graph 2 is not made of 25: 24", STARTS, STARTS.replace("25", "24")),
    planted("ncb-several", r"exactly where C > 1[^\x00]*ncb-ignored", LIMIT, LIMIT.replace("it->limited", (
        "it->limited && plan->c == 1"))),
    planted("k0-from-n-rv3", "exactly where rv = 3", START, START.replace("ncb", "(rv == 3 ? plan->n : ncb)")),
    planted("k0-late-rv1", "exactly where rv = 1", START, START.replace(";", " + (rv == 1 ? 2 * plan->z : 0);")),
    planted("lbrm-in-32-bits", "exactly where TBS_LBRM >= 1,431,655,", LIMIT, LIMIT.replace("3ull", "3u")),
)

UNIT = "unit = it->nl * it->qm, all"
LONGER = "is_longer(j, count, longer)"

LENGTHS = (
    planted("layers-3", "NL = 3 is taken as 1", UNIT, UNIT.replace("it->nl", "(it->nl == 3 ? 1 : it->nl)")),
    told("mask-backwards", ("E has the right numbers, at other code blocks", NOTHING),
            "int scheduled = all || it->mask[r] == '1';", "int scheduled = all || it->mask[plan->c - 1 - r] == '1';"),
    told("longer-alternate", ("E has the right numbers, at other code blocks", NOTHING), LONGER,
         "((j % 2 ? j / 2 : count / 2 + j / 2) < longer)"),
)

NEXT = "for (unsigned k = 0, j = 0; k < count; j++)\n        if (d[(k0 + j) % ncb] != FILLER)\n            " + ROUND

SELECTION = (
    planted("wrapped-past-0", "exactly where it wraps", NEXT,
            NEXT.replace("j++)", "j++)\n        if (j && (k0 + j) % ncb == 0)\n            ;\n        else")),
    planted("wrapped-to-parity", "exactly where it wraps", NEXT, NEXT.replace(
        "(k0 + j) % ncb", "(k0 + j < ncb ? k0 + j : ncb - 1 - (k0 + j) % ncb)")),
    planted("second-wrap-to-k0", "exactly where", NEXT, NEXT.replace(
        "(k0 + j) % ncb", "(j < ncb ? (k0 + j) % ncb : (k0 + j) % ncb >= k0 ? (k0 + j) % ncb : k0)")),
    planted("fillers-skipped-once", "exactly where fillers are passed after the wrap", NEXT, NEXT.replace(
        "!= FILLER)", "!= FILLER || k0 + j >= ncb)").replace(ROUND, ROUND.replace(";", " != 0;"))),
    told("beat-lost", "32 bits are missing from bit 1184 on", NEXT,
            NEXT + "\n    if (count > 1216)\n        memmove(e + 1184, e + 1216, count - 1216);"),
    told("word-sent-twice", "32 bits are too many from bit", NEXT,
            NEXT + "\n    if (count > 256)\n        memmove(e + 96, e + 64, count - 96)" + ";"),
    planted("one-place-late", ("1 bit is missing from bit 0 on", "k0 is 1 too many"), NEXT, NEXT.replace("j = 0;", "j = 1;")),
)

INTERLEAVING = (
    planted("by-columns-64qam", "exactly where Qm = 6", PLACE,
            "f[i + j * qm] = qm == 6 ? e[i + j * qm] : e[i * (count / qm) + j];"),
    planted("transposed-qpsk", "exactly where Qm = 2", PLACE,
            "if (qm == 2)\n                f[i * (count / qm) + j] = e[i + j * qm];\n            else\n"
            "                " + PLACE),
    planted("i-and-q-exchanged", "with each pair exchanged", PLACE, "f[(qm > 1 ? i ^ 1 : i) + j * qm] = e[i * (count / qm) + j];"),
    planted("256qam-as-16qam", "exactly where Qm = 8", PLACE,
            PLACE.replace("i + j * qm", "(qm == 8 ? i / 2 + i % 2 * 4 : i) + j * qm")),
    planted("rows-of-whole-octets", ("exactly where", "exactly where"), PLACE, PLACE.replace(
        "(count / qm) + j", "(count / qm) + (i && count / qm % 8 ? (j + 1) % (count / qm) : j)")),
)

SENT = "    write_answer(it, &made, at);"

CONCATENATION = (
    told("gap-between-code-blocks", "1 bit is missing from bit 0 on", SENT,
            "    if (plan->c > 1 && made.lengths[0] && made.lengths[0] < at)\n"
            "        memmove(made.f, made.f + 1, at - 1);\n" + SENT),
    planted("sent-8-fewer", "exactly where G >= ", SENT, "    if (at > 4096)\n        at -= 8;\n" + SENT),
    planted("first-code-block-twice", NOTHING, SENT,
            "    if (plan->c > 1 && at > made.lengths[0])\n        memmove(made.f + made.lengths[0], made.f, "
            "made.lengths[0] < at - made.lengths[0] ? made.lengths[0] : at - made.lengths[0]);\n" + SENT),
)

WORD = "    static unsigned char word[MOST_COLUMNS * MOST_SIZE];\n    memset(word, 0, sizeof word);"

# Bugs of hardware. A rotator turns the wrong way, and another one subtracts Zc once and shifts the rest out. A reader
# goes one place past the buffer's end. The columns of the fillers have what the code block before left there.
HARDWARE = (
    planted("rotator-left", "shift-left", SHIFT, "return (z - value % z) % z;"),
    planted("shift-once-lost", r"exactly where (parity bits are sent and )?Zc <= \d+", SUM,
            "if (it->values[plan->set] < 2 * plan->z)\n                " + SUM),
    planted("one-place-past-the-end", "wrapped-late", "select_bits(d, made->k0, made->ncb,",
            "select_bits(d, made->k0, made->ncb + (made->ncb < plan->n),"),
    planted("stale-fillers", "bits that are left in the places of fillers, with parity bits, in one memory",
            WORD, WORD.splitlines()[0],
            "    memset(word + plan->kdash, filler_in_d(), plan->k - plan->kdash);\n"
            "    memcpy(d, word + 2 * plan->z, plan->n);",
            "    memcpy(d, word + 2 * plan->z, plan->n);\n"
            "    memset(d + plan->kdash - 2 * plan->z, filler_in_d(), plan->k - plan->kdash);"),
)

PLANTED = (
    *CRC, *ENTRIES, *CODING, *SEGMENTATION, *BUFFER, *LENGTHS, *SELECTION, *INTERLEAVING, *CONCATENATION
)
