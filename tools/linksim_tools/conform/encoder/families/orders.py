"""Octets, words and code blocks in another order, at the input and at the output; words that are filled up."""

from __future__ import annotations

import itertools
import typing

from linksim_tools.conform.bits import Order, backwards, each_octet_reversed, in_words, inverted, octets_backwards, words_of
from linksim_tools.conform.encoder.families import after, instead, mistake, told
from linksim_tools.conform.encoder.families.crcs import EACH, KINDS, over
from linksim_tools.conform.mistake import Methods, Mistake

Parts = typing.Callable[[typing.List[str]], typing.List[str]]


def filled_turned(width: int) -> Order:
    """The octets of each word in reverse, the last word filled up with zeros, and as many bits taken as there are."""
    turned = in_words(width, octets_backwards)
    return lambda bits: turned(bits + "0" * (-len(bits) % width))[: len(bits)]


def halves(width: int) -> Order:
    """The words of each pair exchanged."""
    return in_words(2 * width, lambda pair: pair[width:] + pair[:width], True)


def orders() -> typing.Iterator[tuple[str, Order]]:
    """Orders of bits, each with words."""
    for width in (16, 32, 64, 128):
        for of, order in (("octets", octets_backwards), ("bits", backwards)):
            said = f"the {of} of each word of {width} bits are in reverse"
            yield said, in_words(width, order)
            yield f"{said}, but those of a last word that is not whole", in_words(width, order, True)
            if of == "octets":
                yield f"{said}, the last word filled up", filled_turned(width)
        yield f"the words of {width // 2} bits of each pair are exchanged", halves(width // 2)
    yield "the bits of each octet are in reverse", each_octet_reversed
    yield "the halves of each octet are exchanged", halves(4)
    yield "the bits of each pair are exchanged", halves(1)
    yield "all bits are in reverse", backwards
    yield "all bits are inverted", inverted


# In which order the bits of a symbol may be: words, and the rows. Receivers have the same.
SYMBOLS: tuple[tuple[str, typing.Callable[[int], list[int]]], ...] = (
    ("in reverse", lambda qm: [*range(qm)][::-1]), ("with each pair exchanged", lambda qm: [it ^ 1 for it in range(qm)]),
    ("with its halves exchanged", lambda qm: [(it + qm // 2) % qm for it in range(qm)]),
    ("first the even ones, then the odd ones", lambda qm: [*range(0, qm, 2), *range(1, qm, 2)]),
    ("from both halves in turn", lambda qm: [it // 2 + it % 2 * (qm // 2) for it in range(qm)]),
    ("with its pairs in reverse", lambda qm: [qm - 2 - it // 2 * 2 + it % 2 for it in range(qm)]),
)


def in_symbols(order: typing.Callable[[int], list[int]]) -> Methods:
    """f whose symbols have their bits in another order."""
    def turned(f: str, _e: str, qm: int) -> str:
        rows = order(qm)
        return f if qm % 2 else in_words(qm, lambda symbol: "".join(symbol[row] for row in rows))(f)

    return after("interleaved", turned)


# Orders of code blocks, of their bits.
BLOCKS: tuple[tuple[str, Parts], ...] = (
    ("they are in reverse", lambda f: f[::-1]), ("the last code block comes first, then r = 0, 1, ..", lambda f: f[-1:] + f[:-1]),
    ("r = 0 comes last", lambda f: f[1:] + f[:1]), ("even r come first, then odd ones", lambda f: f[::2] + f[1::2]),
    ("odd r come first, then even ones", lambda f: f[1::2] + f[::2]),
    ("the code blocks of each pair are exchanged", lambda f: [it for at in range(0, len(f), 2) for it in f[at : at + 2][::-1]]),
    ("the last two code blocks are exchanged", lambda f: f[:-2] + f[-2:][::-1]),
    ("r = 0 is sent in place of each", lambda f: f[:1] * len(f)),
    ("r = 0 is sent twice, and the last not", lambda f: f[:1] + f[:-1]),
    ("the last code block is sent twice, and r = 0 not", lambda f: f[1:] + f[-1:]),
    ("r = 0 is left out", lambda f: f[1:] if len(f) > 1 else f), ("the last code block is left out", lambda f: f[:-1] or f),
    ("all but the first are left out", lambda f: f[:1]),
)


def in_turns(width: int) -> Parts:
    """So many bits of each code block in turn."""
    return lambda f: ["".join(turn) for turn in itertools.zip_longest(*(words_of(it, width) for it in f), fillvalue="")]


def filled_up(width: int) -> Parts:
    """Each code block filled up with zeros to whole words, but the last."""
    return lambda f: [it + "0" * (-len(it) % width) for it in f[:-1]] + f[-1:]


def joined(change: Parts, cut: bool = False, scheduled: bool = True) -> Methods:
    """Code blocks joined otherwise, those alone of which something is sent, or all."""
    def made(f: list[str]) -> str:
        found = "".join(change([it for it in f if it or not scheduled]))
        return found[: sum(map(len, f))] if cut else found

    return instead("joined", made)


def ends(width: int) -> typing.Iterator[tuple[str, Order]]:
    """Bits that end by whole words."""
    yield f"what is no multiple of {width} bits is left out", lambda bits: bits[: len(bits) // width * width]
    yield f"zeros follow up to a multiple of {width} bits", lambda bits: bits + "0" * (-len(bits) % width)
    yield (f"zeros stand in place of what is no multiple of {width} bits",
           lambda bits: bits[: len(bits) // width * width] + "0" * (len(bits) % width))


def turned(hook: str, order: typing.Callable[..., typing.Any]) -> Methods:
    """An order of what a method gives."""
    return after(hook, lambda it, *_: order(it))


def parity(order: Order, names: tuple[str, ...] = EACH) -> Methods:
    """An order of the parity bits of these CRCs."""
    return after("crc", lambda bits, name, _: order(bits) if name in names else bits)


# What may be in another order: its step, words, what is right, and the method that gives it.
PLACES = (("concatenation", "output", "f of r = 0 first, its first bit first", "joined"),
          ("interleaving", "f of each code block", "5.4.2.2", "interleaved"),
          ("selection", "e of each code block", "5.4.2.1", "selected"),
          ("codecrc", "the bits of each code block", "5.2.2", "code_block"))


def mistakes() -> typing.Iterator[Mistake]:
    for words, order in orders():
        right = "a_0 is the highest bit of the first octet"
        yield mistake("other-order", "crc", f"input: {words}", right, told(a=order))
        for steps, whose, names in KINDS:
            yield mistake("other-order", steps, f"the input of {whose}: {words}", "a_0 is taken first", over(names, order))
            yield mistake("other-order", steps, f"the parity bits of {whose}: {words}", "p_0 is sent first", parity(order, names))
        for step, what, right, hook in PLACES:
            yield mistake("other-order", step, f"{what}: {words}", right, turned(hook, order))
    for words, rows in SYMBOLS[1:]:
        yield mistake("other-order", "interleaving", f"the bits of each symbol: {words}", "5.4.2.2", in_symbols(rows))
    for words, change in BLOCKS:
        right = "f of r = 0, 1, 2, .."
        for said, scheduled in (("the code blocks that are sent", True), ("all code blocks", False)):
            yield mistake("other-block-order", "concatenation", f"of {said}: {words}", right, joined(change, scheduled=scheduled))
        said = f"of the bits of the code blocks: {words}"
        yield mistake("other-block-order", "codecrc", said, "r = 0, 1, 2, .. (5.2.2)", turned("code_blocks", change))
    for width in (1, 2, 4, 8, 16, 32, 64):
        said = f"{width} bits of each code block are sent in turn"
        yield mistake("other-block-order", "concatenation", said, "one after the other", joined(in_turns(width)))
    for width in (8, 16, 32, 64):
        said, right = f"each code block is filled up to a multiple of {width} bits", "no bit is between code blocks"
        yield mistake("filled-up", "concatenation", said, right, joined(filled_up(width)))
        yield mistake("filled-up", "concatenation", f"{said}, and G bits are sent", right, joined(filled_up(width), True))
        for (words, order), (step, what, _, hook) in itertools.product(ends(width), PLACES[:3]):
            yield mistake("filled-up", step, f"{what}: {words}", "send all G bits, E_r of each code block", turned(hook, order))
