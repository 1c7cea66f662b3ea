"""`tools/table fingerprint`: its definition, by another encoder; and that every kind of damage changes it."""

from __future__ import annotations

import hashlib
import random
import typing

from model import encoder
import shared
from linksim_tools.common.graphs import GRAPHS, LARGEST
from linksim_tools.table import fingerprint

Places = typing.List[typing.Tuple[int, int]]
Damage = typing.Callable[[random.Random, shared.Entries, Places], typing.Iterable[int]]


def other_fingerprint(graph: int, entries: shared.Entries) -> list[str]:
    """The digests of a base graph, by the definition in docs/tables.md and another encoder."""
    information = GRAPHS[graph].information
    digests = []
    for index, size in enumerate(LARGEST):
        length = information * size - (24 if information * size - 24 > 3824 else 16)
        octets = b"".join(
            hashlib.sha256(b"linksim table bg%d set%d %d" % (graph, index, counter)).digest() for counter in range(40)
        )[: length // 8]
        word = encoder.codeword(entries, information, index, size, encoder.attached(encoder.bits_of(octets)))
        digits = encoder.octets_of(word[2 * size :]).hex()
        assert len(digits) == GRAPHS[graph].sent * size // 4
        digests.append(hashlib.sha256(digits.encode()).hexdigest()[:12])
    return digests


class Fingerprint(shared.InFolder):
    """The sixteen lines."""

    def digests(self, tables: dict[int, shared.Entries]) -> dict[tuple[str, ...], str]:
        """The lines of the fingerprint of these tables, by base graph and set index."""
        path = self.file("table.csv", shared.table_text(tables))
        return {tuple(line.split()[:4]): line.split()[4] for line in fingerprint.fingerprint(path)}

    def test_by_another_encoder(self) -> None:
        tables = {graph: shared.drawn_entries(graph, seed=3) for graph in (1, 2)}
        output = shared.made("table", "fingerprint", "--table", self.file("table.csv", shared.table_text(tables)))
        wanted = [
            f"graph {graph} set {index} {digest}\n"
            for graph, entries in tables.items()
            for index, digest in enumerate(other_fingerprint(graph, entries))
        ]
        self.assertEqual(output, "".join(wanted))

    def test_order_of_records_does_not_matter(self) -> None:
        tables = {2: shared.drawn_entries(2)}
        lines = shared.table_text(tables).splitlines(keepends=True)
        random.Random(1).shuffle(lines)
        found = list(fingerprint.fingerprint(self.file("shuffled.csv", "".join(lines))))
        self.assertEqual(found, [" ".join([*key, digest]) for key, digest in self.digests(tables).items()])

    def damaged(self, damage: Damage, count: int = 4) -> None:
        """A damage to a table of either base graph changes the digests of the sets that it touches, and no other ones.
        `damage` has drawn numbers, the entries and the places of free values, and answers the sets."""
        for graph in (1, 2):
            entries = shared.drawn_entries(graph)
            before = self.digests({graph: entries})
            free = [(row, column) for row, column in entries if column < GRAPHS[graph].information]
            for seed in range(count if graph == 2 else 2):
                with self.subTest(graph=graph, seed=seed):
                    changed = {place: list(values) for place, values in entries.items()}
                    sets = set(damage(random.Random(seed), changed, free))
                    after = self.digests({graph: changed})
                    self.assertEqual({int(key[3]) for key in before if before[key] != after[key]}, sets)

    def test_one_digit(self) -> None:
        def damage(numbers: random.Random, entries: shared.Entries, free: Places) -> list[int]:
            values, index = entries[numbers.choice(free)], numbers.randrange(8)
            digits = list(str(values[index]))
            place = numbers.randrange(len(digits))
            fits = [
                it
                for it in "0123456789" if it != digits[place]
                and int("".join([*digits[:place], it, *digits[place + 1 :]])) < LARGEST[index]
            ]
            digits[place] = numbers.choice(fits)
            values[index] = int("".join(digits))
            return [index]

        self.damaged(damage, count=10)

    def test_two_neighbouring_values_exchanged(self) -> None:
        def damage(numbers: random.Random, entries: shared.Entries, free: Places) -> list[int]:
            index = numbers.randrange(7)
            places = [
                it for it in free if entries[it][index] < LARGEST[index + 1] and entries[it][index + 1] < LARGEST[index]
            ]
            values = entries[numbers.choice([it for it in places if entries[it][index] != entries[it][index + 1]])]
            values[index : index + 2] = values[index + 1], values[index]
            return [index, index + 1]

        self.damaged(damage, count=10)

    def test_values_of_two_entries_exchanged(self) -> None:
        def damage(numbers: random.Random, entries: shared.Entries, free: Places) -> list[int]:
            index, at = numbers.randrange(8), numbers.randrange(len(free) - 1)
            one, other = entries[free[at]], entries[free[at + 1]]
            self.assertNotEqual(one[index], other[index])
            one[index], other[index] = other[index], one[index]
            return [index]

        self.damaged(damage)

    def test_two_sets_exchanged(self) -> None:
        def damage(numbers: random.Random, entries: shared.Entries, _: Places) -> list[int]:
            one, other = numbers.sample(range(8), 2)
            for values in entries.values():
                values[one], values[other] = values[other], values[one]
            return [one, other]

        self.damaged(damage)

    def test_entry_at_another_column(self) -> None:
        def damage(numbers: random.Random, entries: shared.Entries, free: Places) -> range:
            row, column = numbers.choice(free)
            empty = [it for it in range(10) if (row, it) not in entries]
            entries[row, numbers.choice(empty)] = entries.pop((row, column))
            return range(8)

        self.damaged(damage)

    def test_one_graph(self) -> None:
        output = shared.made("table", "fingerprint", "--table", shared.EXAMPLES / "practice.csv")
        self.assertEqual([line.rsplit(" ", 1)[0] for line in output.splitlines()], [f"graph 2 set {it}" for it in range(8)])

    def test_table_that_is_refused(self) -> None:
        path = self.file("table.csv", "2,0,0\n")
        said = f"tools/table: {path}: rejected: table Fields: record 1 of the table does not have eleven fields\n"
        self.assertEqual(shared.refused("table", "fingerprint", "--table", path), said)
