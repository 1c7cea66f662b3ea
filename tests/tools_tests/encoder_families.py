"""Further mistakes of the example encoder that no list has, some twelve of each kind.

Each is a change of examples/conform/encoder.h, with what its diagnosis must say of all steps and of the bits that are sent
alone."""

from __future__ import annotations

from encoder_mistakes import (
    CODE_CRC, EXTENSION, LIMIT, Planted, REST, ROUND, SHIFT, START, TB_CRC, TURN, WORD, ZC, planted,
)

ANSWER = "    struct made made = {.plan = plan_of(it->a, it->rate2048, 0)};"
K0 = "made.k0 = start_of(plan, it->rv, made.ncb);"
NCB = "made.ncb = limit < plan->n ? limit : plan->n;"
SHARE = "    share_out(it, plan, made.lengths);"
LEAST = "unsigned least = it->g / unit / count, longer = it->g / unit % count;"
PARITY = "    put_parity(plan, word);\n    memset(word + plan->kdash, filler_in_d(), plan->k - plan->kdash);"
PART = "memcpy(to, b + r * part, part);"
IF_BIT = "if (d[(k0 + j) % ncb] != FILLER)\n            " + ROUND
SELECT = "    select_bits(d, made->k0, made->ncb, made->lengths[r], made->e + at);"
INPUT = "    memcpy(made.b, it->bits, it->a);"
WRITE = "    write_bits(made->f, sent);"
KB = "over > 640 ? 10 : over > 560 ? 9 : over > 192 ? 8 : 6"
TWO = "int two = a <= 292 || (a <= 3824 && 100 * rate2048 <= 67 * 2048) || 4 * rate2048 <= 2048;"
COUNT = "it.c = it.b > kcb ? (it.b + kcb - 25) / (kcb - 24) : 1;"


def late(name: str, said: str, number: str, text: str, value: str = "started ? kept : now") -> Planted:
    """A number that is that of the case before, from this text on."""
    change = f"unsigned now = {number}; {number} = {value}; kept = now, started = 1;"
    return planted(name, f"{said} is that of the case before", text,
                   f"{text} {{ static int started; static unsigned kept; {change} }}")


def words_turned(at: str, count: str, width: int, change: str) -> str:
    """C that changes each whole word of bits: `o` is its first bit, `w` its width."""
    return (f"for (unsigned o = 0, w = {width}; o + w <= {count}; o += w) {{ unsigned char old[128]; "
            f"memcpy(old, {at} + o, w); for (unsigned i = 0; i < w; i++) {at}[o + i] = old[{change}]; }}")


def output(name: str, both: str | tuple[str, str], code: str) -> Planted:
    """A change of the bits that are sent, `f` of them `at`, after each f was written; `c` and `lengths` are the code blocks."""
    head = ("    unsigned char *f = malloc(2 * sent + 64 * made->plan.c + 64), *old = made->f;\n"
            "    memcpy(f, made->f, sent);\n    unsigned at = sent, c = made->plan.c, *lengths = made->lengths;\n"
            "    (void)c, (void)lengths, (void)old;\n")
    return planted(name, both, WRITE, head + f"    {code}\n    write_bits(f, at);")


def rows_if(condition: str) -> tuple[str, str]:
    """The rows of the extension, of which those alone are made for which this is so."""
    return EXTENSION, EXTENSION.replace("row++)", f"row++)\n        if ({condition})")


def passed_over(condition: str) -> tuple[str, str]:
    """Entries of which those are left out for which this is so."""
    return TURN, f"{TURN}\n        if ({condition})\n            continue;"


OCTETS = "w - 8 - i / 8 * 8 + i % 8"
REVERSED = "w - 1 - i"

STATE = (
    planted("fillers-left", "bits that are left in the places of fillers", WORD, WORD.splitlines()[0],
            PARITY, "    put_parity(plan, word);\n    unsigned char old[MOST_COLUMNS * MOST_SIZE];\n"
            "    memcpy(old, word, sizeof word);\n    memset(word + plan->kdash, filler_in_d(), plan->k - plan->kdash);",
            "    memcpy(d, word + 2 * plan->z, plan->n);", "    memcpy(d, word + 2 * plan->z, plan->n);\n    "
            "memcpy(word, old, sizeof word);"),
    planted("fillers-of-the-block-before", "bits that are left in the places of fillers", WORD, WORD + (
            "\n    static unsigned char before[MOST_COLUMNS * MOST_SIZE];\n    memcpy(word, before, plan->k);"),
            "    memcpy(d, word + 2 * plan->z, plan->n);",
            "    memcpy(d, word + 2 * plan->z, plan->n);\n    memcpy(before, bits, plan->kdash);"
            "\n    memset(before + plan->kdash, 0, sizeof before - plan->kdash);"),
    late("rv-late", "rv", "it->rv", ANSWER),
    late("qm-late", "Qm", "it->qm", ANSWER),
    late("nl-late", "NL", "it->nl", ANSWER),
    late("k0-late", "k0", "made.k0", K0),
    late("ncb-late", "Ncb", "made.ncb", NCB, "started && kept < plan->n ? kept : started ? plan->n : now"),
    late("set-late", "set index", "it.set", "    it.k = graphs[it.graph].information * it.z;"),
    planted("lbrm-late", "TBS_LBRM is that of the case before", ANSWER, ANSWER + " { static int started, limited; "
            "static unsigned kept; unsigned now = it->lbrm; int now_limited = it->limited; "
            "if (started) it->lbrm = kept, it->limited = limited; kept = now, limited = now_limited, started = 1; }"),
    planted("crc-register-left", "register begins with the parity bits of the case before", REST,
            REST.replace("rest = 0;", "rest = polynomial == 0x800063 ? 0 : left & ((1u << length) - 1);"),
            "static unsigned crc_of(", "static unsigned left;\nstatic unsigned crc_of(",
            "        bits[count + i] = rest >> (length - 1 - i) & 1;",
            "        bits[count + i] = rest >> (length - 1 - i) & 1;\n    if (polynomial != 0x800063)\n        left = rest;"),
    planted("e-left", "case before", SELECT, SELECT + "\n    static unsigned char left[1 << 22];\n    static unsigned was;\n"
            "    if (made->lengths[r] < was)\n        memcpy(made->e + at + made->lengths[r] / 2, left + "
            "made->lengths[r] / 2, made->lengths[r] - made->lengths[r] / 2);\n"
            "    memcpy(left, made->e + at, was = made->lengths[r]);"),
)

ROWS = (
    planted("row-17-set-2", "row 17", *rows_if("row != 17 || plan->set != 2")),
    planted("rows-from-20", "rows from 20 on", *rows_if("row < 20")),
    planted("rows-from-31-graph-1", "rows from 31 on", *rows_if("row < 31 || plan->graph == 2")),
    planted("row-9-both-graphs", "row 9 gives zeros in both base graphs", *rows_if("row != 9")),
    planted("columns-4-to-7", "columns 4 to 7", *passed_over("it->column >= 4 && it->column < 8")),
    planted("column-3-of-extension", "column 3 of rows from 4 on", *passed_over("it->column == 3 && row >= 4")),
    planted("row-12-another-set", "row 12", TURN, TURN.replace("plan->set]", "row == 12 ? (plan->set + 1) % 8 : plan->set]")),
    planted("last-bit-of-rows", "last bit", *rows_if("word[(first + row) * z + z - 1] = 0, 1"),
            "add_row(plan, row, first + 4, word, word + (first + row) * z);",
            "add_row(plan, row, first + 4, word, word + (first + row) * z), word[(first + row) * z + z - 1] = 0;"),
    planted("bits-from-256", "t = 256", "add_row(plan, row, first + 4, word, word + (first + row) * z);",
            "{ add_row(plan, row, first + 4, word, word + (first + row) * z); for (unsigned t = 256; t < z; "
            "t++) word[(first + row) * z + t] = 0; }"),
    planted("value-plus-one-row-6", "row 6", TURN, TURN.replace("it->values[plan->set]", "it->values[plan->set] "
            "+ (row == 6 && it->column < graph->information)")),
    planted("odd-rows-of-graph-2", "row", *rows_if("plan->graph == 1 || row % 2 == 0 || row < 30")),
    planted("column-25-lost", "column", *passed_over("it->column == graph->information + 3 && row >= 4")),
)

WORDS = (
    *(planted(f"input-octets-of-{width}", f"input: the octets of each word of {width} bits", INPUT,
              INPUT + "\n    " + words_turned("made.b", "it->a", width, OCTETS)) for width in (16, 32, 64)),
    output("output-octets-of-32", "output: the octets of each word of 32 bits", words_turned("f", "at", 32, OCTETS)),
    output("output-bits-of-32", "output: the bits of each word of 32 bits", words_turned("f", "at", 32, REVERSED)),
    output("output-words-exchanged", "output: the words of 32 bits of each pair are exchanged",
            words_turned("f", "at", 64, "(i + 32) % 64")),
    output("word-lost-each-1024", "32 bits are missing from bit 992 on",
           "at = 0; for (unsigned o = 0; o < sent; o++) if (o % 1024 < 992) f[at++] = old[o];"),
    planted("word-of-zeros", "zeros", SELECT, SELECT + "\n    if (made->lengths[r] > 224)\n        "
            "memset(made->e + at + 192, 0, 32);"),
    planted("crc-padded-to-32", "takes zeros up to a multiple of 32 bits", TB_CRC, "{ unsigned char *padded = "
            "calloc(it->a + 64, 1); memcpy(padded, made.b, it->a);"
            " unsigned whole = (it->a + 31) / 32 * 32; put_crc(padded, whole, plan->b - it->a, it->a > 3824 ? 0x864CFB : 0x1021);"
            " memcpy(made.b + it->a, padded + whole, plan->b - it->a); free(padded); }"),
    planted("code-crc-padded-to-64", "takes zeros up to a multiple of 64 bits", CODE_CRC, "{ unsigned whole = "
            "(part + 63) / 64 * 64;"
            " unsigned char *padded = calloc(whole + 24, 1); memcpy(padded, to, part); put_crc(padded, whole, 24, 0x800063);"
            " memcpy(to + part, padded + whole, 24); free(padded); }"),
    planted("f-octets-of-16", "f of each code block: the octets of each word of 16 bits",
            "    interleave(made->e + at, made->lengths[r], it->qm, made->f + at);",
            "    interleave(made->e + at, made->lengths[r], it->qm, made->f + at);\n    "
            + words_turned("(made->f + at)", "made->lengths[r]", 16, OCTETS)),
)

WIDTHS = (
    planted("k0-13-bits", "k0 keeps 13 bits", K0, K0 + " made.k0 &= 8191;"),
    planted("ncb-13-bits", "Ncb keeps 13 bits", NCB, NCB + " made.ncb = made.ncb % 8192 ? made.ncb % 8192 : made.ncb;"),
    planted("e-12-bits", "E_r keeps 12 bits", SHARE, SHARE + "\n    for (unsigned r = 0; r < plan->c; r++)\n    "
            "    made.lengths[r] &= 4095;"),
    planted("g-14-bits", "G keeps 14 bits", SHARE, "    it->g &= 16383;\n" + SHARE),
    planted("lbrm-16-bits", "TBS_LBRM keeps 16 bits", LIMIT, LIMIT.replace("it->lbrm", "(it->lbrm & 65535)")),
    planted("nref-14-bits", "Nref keeps 14 bits", LIMIT, LIMIT.replace("(unsigned)(3ull * it->lbrm / (2 * "
            "plan->c))", "((unsigned)(3ull * it->lbrm / (2 * plan->c)) & 16383)")),
    planted("value-7-bits", "V keeps 7 bits", SHIFT, "return value % 128 % z;"),
    planted("p-7-bits", "P keeps 7 bits", SHIFT, "return value % z % 128;"),
    planted("place-14-bits", "the counter of places keeps 14 bits", IF_BIT, IF_BIT.replace("(k0 + j) % ncb",
            "((k0 + j) & 16383) % ncb")),
    planted("product-18-bits", "product of k0 with Ncb keeps 18 bits", START,
            START.replace("starts[plan->graph][rv] * ncb", "(starts[plan->graph][rv] * ncb & 262143)")),
    planted("kdash-12-bits", "K' keeps 12 bits", "    it.kb = !two", "    it.kdash &= 4095;\n    it.kb = !two"),
)

PERMUTED = (
    output("first-last", "last code block comes first",
           "unsigned last = lengths[c - 1]; memcpy(f, old + at - last, last); memcpy(f + last, old, at - last);"),
    output("rotated", "r = 0 comes last",
           "unsigned one = lengths[0]; memcpy(f, old + one, at - one); memcpy(f + at - one, old, one);"),
    output("same-twice", "r = 0", "if (c > 1 && lengths[0] == lengths[c - 1]) memcpy(f + lengths[0], old, at - "
            "lengths[0] < lengths[0] ? at - lengths[0] : lengths[0]);"),
    planted("bits-of-first-in-all", "r = 0", PART, "memcpy(to, b, part);"),
    planted("pairs-exchanged-bits", "pair are exchanged", PART, "unsigned s = r ^ 1;\n    memcpy(to, b + (s < "
            "plan->c ? s : r) * part, part);"),
    planted("bits-rotated", "r = 0 comes last|code blocks", PART, "memcpy(to, b + (r + 1) % plan->c * part, part);"),
    output("octets-in-turns", "8 bits of each code block are sent in turn",
           "unsigned to = 0; for (unsigned o = 0; o < at; o += 8) for (unsigned r = 0, from = 0; r < c; from += lengths[r++])"
           " for (unsigned i = o; i < o + 8 && i < lengths[r]; i++) f[to++] = old[from + i];"),
    output("even-then-odd", "even r come first",
           "unsigned to = 0; for (unsigned odd = 0; odd < 2; odd++) for (unsigned r = 0, from = 0; r < c; from += lengths[r++])"
           " if (r % 2 == odd) { memcpy(f + to, old + from, lengths[r]); to += lengths[r]; }"),
    output("last-left-out", "last code block is left out", "if (lengths[c - 1] < at) at -= lengths[c - 1];"),
    output("last-two-exchanged", "last two code blocks are exchanged",
           "if (c > 1) { unsigned x = lengths[c - 2], y = lengths[c - 1]; memcpy(f + at - x - y, old + at - y, y);"
           " memcpy(f + at - x, old + at - x - y, x); }"),
    output("padded-to-octets", "filled up to a multiple of 8 bits",
           "unsigned to = 0, n = 0; for (unsigned r = 0; r < c; r++) if (lengths[r]) n = r;"
           " for (unsigned r = 0, from = 0; r < c; from += lengths[r++]) { memcpy(f + to, old + from, lengths[r]);"
           " to += lengths[r]; while (r < n && to % 8) f[to++] = 0; } at = to;"),
)

FORMULAS = (
    planted("nref-ceil", "Nref is ceil", LIMIT, LIMIT.replace("3ull * it->lbrm / (2 * plan->c)",
            "(3ull * it->lbrm + 2 * plan->c - 1) / (2 * plan->c)")),
    planted("nref-67", "Nref is TBS_LBRM / \\(0.67 C\\)", LIMIT, LIMIT.replace("3ull * it->lbrm / (2 * "
            "plan->c)", "100ull * it->lbrm / (67 * plan->c)")),
    planted("lbrm-in-octets", "TBS_LBRM is an 8th|8th", LIMIT, LIMIT.replace("it->lbrm", "(it->lbrm / 8)")),
    planted("ncb-down-to-z", "Ncb is rounded down to a multiple of Zc", NCB, NCB + " made.ncb = made.ncb > "
            "plan->z ? made.ncb / plan->z * plan->z : made.ncb;"),
    planted("ncb-up-to-z", "Ncb is rounded up to a multiple of Zc", NCB, NCB + " made.ncb = (made.ncb + plan->z "
            "- 1) / plan->z * plan->z;"),
    planted("k0-divided-first", "k0 is number floor", START, "return starts[plan->graph][rv] * (ncb / plan->n) * plan->z;"),
    planted("k0-68-columns", "columns \\+ 2|68", START, START.replace("plan->n", "(plan->n + 2 * plan->z)")),
    planted("k0-plus-z", r"exactly where rv > 0[^\x00]*k0 is Zc too large", K0, K0 + " made.k0 += it->rv ? plan->z : 0;"),
    planted("longer-by-g", "mod\\(G, C'\\) are longer", LEAST, LEAST.replace("it->g / unit % count", "it->g % count")),
    planted("unit-qm-twice", "the unit is", "unit = it->nl * it->qm, all", "unit = it->qm > it->nl ? it->qm : it->nl, all"),
    planted("count-floor-plus-one", "C is floor", COUNT, COUNT.replace("(it.b + kcb - 25) / (kcb - 24)", "it.b / (kcb - 24) + 1")),
    planted("zc-for-24-more", "Kb Zc >= K' \\+ 24", ZC, ZC.replace("it.kb * it.z < it.kdash", "(it.z < 384 && "
            "it.kb * it.z < it.kdash + 24)")),
    planted("e-in-octets", "whole octets", SHARE, SHARE + "\n    for (unsigned r = 0; r < plan->c; r++)\n       "
            " made.lengths[r] = made.lengths[r] / 8 * 8;"),
)

BOUNDARIES = (
    *(planted(f"kb-{most}-strict", f"B = {most}|limit {most}", KB, KB.replace(f"over > {most}", f"over >= {most}"))
      for most in (640, 560, 192)),
    planted("kb-no-192", "limit 192", KB, KB.replace("over > 192 ? 8 : 6", "8")),
    planted("graph-292-missing", "limit 292", TWO, TWO.replace("a <= 292", "0")),
    planted("graph-rate-strict", "limit 1,372|1372", TWO, TWO.replace("100 * rate2048 <= 67 * 2048", "rate2048 < 1372")),
    planted("graph-3840", "limit 3,824", TWO, TWO.replace("a <= 3824", "a <= 3840")),
    planted("crc-at-3824", "limit 3,824", "it = {.a = a, .b = a + (a > 3824 ? 24 : 16)}", "it = {.a = a, .b = a + (a >= 3824 ? "
            "24 : 16)}", TB_CRC, TB_CRC.replace("a > 3824", "a >= 3824")),
    planted("kcb-3832", "limit 3,840|Kcb", "it.l = it.b > kcb ? 24 : 0;", "it.l = it.b > kcb - 8 * two ? 24 : "
            "0;", COUNT, COUNT.replace("it.b > kcb", "it.b > kcb - 8 * two")),
    planted("kcb-8424", "limit 8,448|Kcb", "it.l = it.b > kcb ? 24 : 0;", "it.l = it.b > kcb - 24 * !two ? 24 : "
            "0;", COUNT, COUNT.replace("it.b > kcb", "it.b > kcb - 24 * !two")),
)

CODE_CRCS = (
    planted("code-crc-first-alone", "r > 0", CODE_CRC, CODE_CRC + "\n    if (plan->l && r)\n        memset(to + part, 0, 24);"),
    planted("code-crc-not-last", "the last code block are zeros", CODE_CRC, CODE_CRC + "\n    if (plan->l && r "
            "== plan->c - 1)\n        memset(to + part, 0, 24);"),
    planted("code-crc-not-first", "r = 0 are zeros", CODE_CRC, CODE_CRC + "\n    if (plan->l && !r)\n        "
            "memset(to + part, 0, 24);"),
    planted("code-crc-chained", "register begins with the parity bits of the code block before", REST, REST.replace(
            "rest = 0;", "rest = polynomial == 0x800063 ? chained : 0;"), CODE_CRC,
            "chained = r ? chained : 0;\n    if (plan->l)\n        put_crc(to, part, 24, 0x800063);\n    for "
            "(unsigned i = chained = 0; plan->l && i < 24; i++)\n"
            "        chained = chained << 1 | to[part + i];", "static unsigned crc_of(", "static "
            "unsigned chained;\nstatic unsigned crc_of("),
    planted("code-crc-skips-8", "begins after 8 bits", CODE_CRC, "{ unsigned char *old = malloc(part + 32); "
            "memcpy(old, to + 8, part - 8); put_crc(old, part - 8, 24, 0x800063);"
            " memcpy(to + part, old + part - 8, 24); free(old); }"),
    planted("code-crc-ends-early", "ends 8 bits early", CODE_CRC, "{ unsigned char *old = malloc(part + 32); "
            "memcpy(old, to, part - 8); put_crc(old, part - 8, 24, 0x800063); memcpy(to + part, old + part - 8, 24); free(old); }"),
    planted("code-crc-odd", "odd r", CODE_CRC, CODE_CRC + "\n    for (unsigned i = 0; plan->l && r % 2 && i < "
            "24; i++)\n        to[part + i] ^= 1;"),
    planted("code-crc-24a-last", "the last code block are those of CRC24A", CODE_CRC,
            CODE_CRC.replace("0x800063", "r == plan->c - 1 ? 0x864CFB : 0x800063")),
    planted("code-crc-over-all", "all code blocks before", CODE_CRC, "{ unsigned all = (r + 1) * part; unsigned "
            "char *old = malloc(all + 24); memcpy(old, b, all);"
            " put_crc(old, all, 24, 0x800063); memcpy(to + part, old + all, 24); free(old); }"),
    planted("code-crc-inverted-last", "the last code block are inverted", CODE_CRC, CODE_CRC + "\n    for "
            "(unsigned i = 0; plan->l && r == plan->c - 1 && i < 24; i++)\n        to[part + i] ^= 1;"),
    planted("code-crc-reversed-first", "r = 0 are in reverse", CODE_CRC, CODE_CRC + "\n    for (unsigned i = 0; "
            "plan->l && !r && i < 12; i++) {\n"
            "        unsigned char old = to[part + i]; to[part + i] = to[part + 23 - i]; to[part + 23 - i] = old; }"),
)

KINDS = {
    "state": STATE, "rows": ROWS, "words": WORDS, "widths": WIDTHS, "permutations": PERMUTED, "formulas": FORMULAS,
    "boundaries": BOUNDARIES, "code block CRC": CODE_CRCS,
}

# Two of these together, and two names of which both must be said.
PAIRS = (
    ("k0-13-bits", "output-octets-of-32"), ("row-9-both-graphs", "nref-67"), ("rows-from-20", "e-12-bits"),
    ("value-7-bits", "ncb-up-to-z"), ("input-octets-of-32", "k0-divided-first"), ("code-crc-not-first", "nref-ceil"),
    ("columns-4-to-7", "rotated"), ("rv-late", "row-12-another-set"), ("crc-padded-to-32", "longer-by-g"),
    ("kb-560-strict", "ncb-down-to-z"),
)
