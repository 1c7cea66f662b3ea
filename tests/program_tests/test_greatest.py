"""The greatest sizes that users have. They are the code blocks of the longest transport blocks of both base graphs, and the
most bits of a transmission, drawn or listed. There are also a limited buffer of several code blocks, rounds of blocks of
several code blocks, and the most transmissions of all processes. What is sent is that of the other model, and the rest
follows from it or by hand."""

from __future__ import annotations

import dataclasses

from model import chain, coding, pcg
from programs import Program, Row
from texts import PRACTICE, QUARTER_RATE, counted, eight, ending, lines, settings_of, seven, six, ten
from worked_texts import ALL_OF_01, both_graphs

# The most bits of a transmission.
MOST_BITS = 4_194_304


@dataclasses.dataclass(frozen=True)
class Sent:
    """A transmission of all code blocks, as the model of the library's tests has it."""

    g: int
    qm: int = 1
    nl: int = 1
    rv: int = 0
    some: int = 0


def delivered(octets: int, code_blocks: int, tx: Sent, rate2048: int = 2048, lbrm: int | None = None) -> Row:
    """The text of `run` if a transport block is sent once, in so many bits that all of each buffer is in them. Then
    each code block is whole."""
    block = counted(octets)
    bits = list(coding.sent(both_graphs().encode(), bytes.fromhex(block), tx, rate2048, lbrm or 0))
    text = [
        f"sent 1 1 {chain.hexadecimal(bits)}",
        *(f"left 1 1 {r} 0" for r in range(code_blocks)),
        *ending("delivered", 1, block, code_blocks),
    ]
    files = {
        "table": both_graphs(),
        "settings": settings_of(rate2048, lbrm),
        "blocks": block,
        "schedule": six(f"1,{tx.rv},{tx.g},{tx.qm},{tx.nl},-"),
    }
    return Row(f"{code_blocks} code blocks in {tx.g} bits", lines(*text), **files)


@dataclasses.dataclass(frozen=True)
class Rounds:
    """A block of some octets at a code rate, sent by a round of each of some processes."""

    name: str
    octets: int
    rate2048: int
    lbrm: int | None
    transmissions: list[tuple[int, chain.Tx]]
    # How many rounds end as delivered and as open.
    outcomes: tuple[int, int]

    def rows(self) -> dict[str, Row]:
        """A row for each of `run` and `audit`."""
        block = counted(self.octets)
        coded = chain.Coded(both_graphs(), (self.rate2048, self.lbrm), bytes.fromhex(block))
        receivers: dict[int, chain.Receiver] = {}
        records, run, counts = [], [], [0] * 16
        for t, (process, tx) in enumerate(self.transmissions, 1):
            records.append(f"{chain.record(tx)},{process},{int(process not in receivers)}")
            receiver = receivers.setdefault(process, chain.Receiver(coded))
            receiver.hear(tx)
            counts[process] += 1
            run.append(f"sent {t} 1 {chain.hexadecimal(coded.sent(tx))}")
            run += [f"left {t} 1 {r} {left}" for r, left in enumerate(receiver.left())]
        failed, c, (delivered, still_open) = 0, coded.plan["c"], self.outcomes
        for process, receiver in sorted(receivers.items()):
            _, more, line = receiver.line(counts[process])
            run.append(f"process {process} block 1 {line}")
            failed += more
        said = f"delivered {delivered} open {still_open} contradiction 0 codeblocks {len(receivers) * c} failed {failed}"
        run.append(f"total rounds {len(receivers)} {said}")
        audit = [f"process {process} {line}" for process, it in sorted(receivers.items()) for line in it.audit(1)]
        settings = settings_of(self.rate2048, self.lbrm)
        files = {"table": both_graphs(), "settings": settings, "blocks": block, "schedule": ten(*records)}
        return {name: Row(self.name, lines(*text), **files) for name, text in [("run", run), ("audit", audit)]}


# Two code blocks of 10,272 bits each, which are ever sent: K' is 1952, and Zc 208. Each is sent by itself. In process 3 the
# second one comes in a second transmission of the round, and in process 5 never. Of eight with K' 3840 and Zc 384 the buffers
# have 10,050 bits of 19,200 each.
PART, LIMITED, EVEN, ODD = 10_272, 10_050, (0, 2, 4, 6), (1, 3, 5, 7)
TWO = Rounds("two code blocks", 479, 512, None, [
    (process, chain.Tx(1, 0, PART, 4, mask=mask)) for process, mask in [(3, (0,)), (5, (0,)), (3, (1,))]
], (1, 1))
EIGHT = Rounds("eight code blocks in limited buffers", 3813, 512, 53_600, [
    (3, chain.Tx(1, 0, 4 * LIMITED, 2, mask=EVEN)), (5, chain.Tx(1, 3, 4 * LIMITED, 2, mask=ODD)),
    (3, chain.Tx(1, 2, 4 * LIMITED, 2, mask=ODD)),
], (1, 1))


def most_transmissions() -> Rounds:
    """4,096 transmissions of the octet 01, 256 in each process. Of transmission k of a process place k - 1 alone is heard, and in
    an odd process nothing from the seventeenth one on."""
    transmissions = []
    for t in range(4096):
        process, step = t % 16, t // 16
        erased = frozenset(range(step)) if process % 2 == 0 or step < 16 else frozenset(range(step + 1))
        transmissions.append((process, chain.Tx(1, 0, step + 1, erased=erased)))
    return Rounds("4,096 transmissions", 1, 2048, None, transmissions, (8, 8))


def listed() -> list[Row]:
    """Rows of 400,000 places, of which a list of 200,000 is erased, flipped or both. The 184 bits of block 01 go round, so what
    is flipped contradicts what is not, if the link does not erase it."""
    places = 400_000
    rows = []
    for erase, flip, outcome in [
        ("0-199999", "0-199999", "delivered"), ("-", "0-199999", "contradiction"), ("0-199998", "200000-399999", "contradiction"),
    ]:
        text = [f"sent 1 1 {(ALL_OF_01 * (places // 184 + 1))[: places // 4]}", "left 1 1 0 0"]
        text += ending(outcome)
        schedule = seven(f"1,0,{places},1,1,{erase},{flip}")
        rows.append(Row(f"{erase} erased, {flip} flipped", lines(*text), schedule=schedule))
    return rows


# Of 4,194,304 places about sixteen are received: block 01 has 184 bits that are ever sent, which go round.
PLACES, SEED, THRESHOLD = MOST_BITS, 2026, 4_294_967_296 - 16_384


def nearly_all_erased() -> dict[str, Row]:
    """A row for each of `run` and `audit` over drawn erasures of so many places."""
    coded = chain.Coded(PRACTICE, (2048, None), b"\1")
    receiver = chain.Receiver(coded)
    turn = coded.places(chain.Tx(1, 0, 184))
    heard = [m for m, word in enumerate(pcg.words(SEED, PLACES)) if word >= THRESHOLD]
    for r, position in (turn[m % 184] for m in heard):
        receiver.note(r, position, coded.words[r][position])
    receiver.peel(0)
    run = [
        f"sent 1 1 {(ALL_OF_01 * (PLACES // 184 + 1))[: PLACES // 4]}",
        *(f"left 1 1 0 {left}" for left in receiver.left()),
        *ending("open"),
    ]
    schedule = six(f"1,0,{PLACES},1,1,pcg:{SEED}:{THRESHOLD}")
    texts = [("run", run), ("audit", list(receiver.audit(1)))]
    return {name: Row(f"{PLACES} drawn places", lines(*text), schedule=schedule) for name, text in texts}


class Greatest(Program):
    """Of `run` and `audit`."""

    def check_each(self, rows: dict[str, Row]) -> None:
        for command, row in rows.items():
            self.check(command, [row])

    def test_66_code_blocks_of_base_graph_1(self) -> None:
        """Each with K' 8444 and Zc 384, so that 25,340 bits of it are ever sent."""
        self.check("run", [delivered(69_462, 66, Sent(66 * 25_344, qm=8, nl=4))])

    def test_the_most_bits_of_a_transmission(self) -> None:
        """The 156 code blocks of the longest transport block of base graph 1, each sent more than once round."""
        self.check("run", [delivered(163_836, 156, Sent(MOST_BITS, rv=2))])

    def test_a_limited_buffer_of_five_code_blocks(self) -> None:
        """TBS_LBRM 25,000 leaves 7,500 of 16,000 bits to each buffer."""
        self.check("run", [delivered(1907, 5, Sent(5 * 7_500, qm=2), rate2048=512, lbrm=25_000)])

    def test_rounds(self) -> None:
        for each in (TWO, EIGHT, most_transmissions()):
            self.check_each(each.rows())

    def test_the_most_drawn_places(self) -> None:
        self.check_each(nearly_all_erased())

    def test_long_lists_of_places(self) -> None:
        self.check("run", listed())
        self.check("audit", [dataclasses.replace(row, output="order 1 0 8\n") for row in listed()])

    def test_344_code_blocks_of_base_graph_2(self) -> None:
        """163,827 octets with K' 3834 and Zc 384. Of each code block, by one of two masks, 12,000 bits are sent: all of its 19,968
        positions but these and six fillers are fixed."""
        schedule = eight(f"1,0,{343 * 12_000},1,1,-,-,0-342", "1,0,12000,1,1,-,-,343")
        text = lines(*(f"order 1 {r} 7962" for r in range(344)))
        files = {"table": both_graphs(), "settings": QUARTER_RATE, "blocks": counted(163_827), "schedule": schedule}
        self.check("audit", [Row("344 code blocks", text, **files)])
