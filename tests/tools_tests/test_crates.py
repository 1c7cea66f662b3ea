"""What the crates' texts are to keep that no proof says. Of proof modules those that a crate above cites are public,
and no other ones. Every lemma is cited and stated once, every public call has a caller or is for users. Lines, files and
lists of parameters are short."""

import pathlib
import re
import typing
import unittest

CRATES = pathlib.Path(__file__).resolve().parent.parent.parent / "crates"

# The files that `rt` reads beside a function's proof; all other files of proofs/ hold lemmas.
OF_A_FUNCTION = {"Answers.antt", "Invariants.antt", "Proof.antt"}
NAME = r"[A-Za-z_][\w'-]*"


def texts(pattern: str) -> typing.Dict[pathlib.Path, str]:
    """The texts of the crates' files of a pattern, without comments."""
    found = {}
    for path in sorted(CRATES.glob(pattern)):
        lines = path.read_text().splitlines()
        found[path] = "\n".join(re.split(r"--|//", line)[0] for line in lines)
    return found


def lemma_files(pattern: str) -> typing.Dict[pathlib.Path, str]:
    """The texts of the files of lemmas of a pattern."""
    return {path: text for path, text in texts(pattern).items() if path.name not in OF_A_FUNCTION}


# The names that the tool makes for a function, which mean another thing in each file.
GENERATED = re.compile(r"^use \S+\.(?:Goals|Given)\.\{([^}]*)\}$", re.MULTILINE)
STATED = re.compile(rf"^(?:pub )?({NAME}) : (.*(?:\n +.*)*)", re.MULTILINE)
A_BINDER = re.compile(r"[({]([^:(){}]+) : ")


def statements(text: str) -> typing.Iterator[typing.Tuple[str, str]]:
    """The lemmas of a file that stand in no module of it, each with its statement in one line. A type that binds nothing
    is a function's."""
    generated = {"goal", "given", *re.findall(NAME, " ".join(GENERATED.findall(text)))}
    for name, statement in STATED.findall(text):
        line = " ".join(statement.split())
        if A_BINDER.search(line) and generated.isdisjoint(re.findall(NAME, line)):
            yield name, line


def by_places(statement: str) -> str:
    """A statement whose bound variables are called by the places where they are bound, implicit ones like the others."""
    plain = statement.replace("{", "(").replace("}", ")")
    bound = " ".join(A_BINDER.findall(plain)).split()
    places = {name: f"§{at}" for at, name in enumerate(dict.fromkeys(bound))}
    return re.sub(rf"(?<![\w.'-]){NAME}", lambda name: places.get(name[0], name[0]), plain)


# The crate whose calls of the others are tests.
TESTS = "worked_examples"
A_CALL = re.compile(r"(?<!fn )\b([a-z_][a-z0-9_]*)(?:::<[^>]*>)?\(")
# A function that is passed by its name.
PASSED = re.compile(r"\.map(?:_err)?\((?:\w+::)?([a-z_]\w*)\)")
FOR_CALLERS = re.compile(r"^- For callers: (.*?), which the program never calls\.", re.MULTILINE | re.DOTALL)


def called() -> typing.Set[str]:
    """The names of all functions that the crates' own code calls; one name is one call, whatever its type."""
    found: typing.Set[str] = set()
    for path, text in texts("*/src/**/*.rt").items():
        if path.relative_to(CRATES).parts[0] != TESTS:
            found.update(A_CALL.findall(text), PASSED.findall(text))
    return found


def public_calls(readme: str) -> typing.Set[str]:
    """The public functions that a crate's README lists, without its laws."""
    listed = readme.partition("\n## Calls\n")[2].partition("<!-- end of")[0]
    calls = set(re.findall(r"^ *(?:pub )?(?:const )?fn (\w+)", listed, re.MULTILINE))
    laws = re.findall(r"`(\w+)`", "".join(re.findall(r"^Laws: .*", listed, re.MULTILINE)))
    return calls.difference(laws)


# A line of sources or proofs has at most so many columns, counted in bytes; this many are longer, and the number only falls.
COLUMNS = 132
LONGER = 7


class Width(unittest.TestCase):
    """Of all crates."""

    def test_long_lines_only_fall(self) -> None:
        """Whoever breaks the last long lines of a file lowers LONGER; nobody raises it."""
        longer = []
        for path in sorted([*CRATES.glob("*/*/**/*.antt"), *CRATES.glob("*/src/**/*.rt")]):
            if "out" not in path.relative_to(CRATES).parts:
                lines = path.read_bytes().split(b"\n")
                longer += [f"{path.relative_to(CRATES)}:{at}" for at, line in enumerate(lines, 1) if len(line) > COLUMNS]
        more = f"{len(longer)} lines have more than {COLUMNS} columns, {LONGER} at most may: " + ", ".join(longer[:40])
        self.assertLessEqual(len(longer), LONGER, more)


# A file of sources, of proofs or of a script has at most so many lines.
LINES = 350
# The public header is one file, because users include one, and the verifier in C is one, because users read and build it alone. They
# may have 50 more.
LONGER_FILES = ("c/nr.h", "examples/verify.c")
BESIDE = ("tools", "tests", "packaging", "bench", "c", "examples")


class Length(unittest.TestCase):
    """Of all crates, and of what is written in Python or C beside them."""

    def test_files_are_short(self) -> None:
        """A file that grows past this is parted by subject, or says something twice."""
        root = CRATES.parent
        found = [*root.glob("crates/*/*/**/*.antt"), *root.glob("crates/*/src/**/*.rt")]
        found += [path for folder in BESIDE for ending in ("py", "c", "h") for path in root.glob(f"{folder}/**/*.{ending}")]
        kept = [path.relative_to(root) for path in sorted(found) if "out" not in path.relative_to(root).parts]
        lines = {str(path): (root / path).read_bytes().count(b"\n") for path in kept}
        self.assertEqual({name: count for name, count in lines.items() if count > LINES + 50 * (name in LONGER_FILES)}, {})


# A function has at most so many parameters, but for the calls whose parameters are those of C's signatures.
PARAMETERS = 7
A_HEAD = re.compile(r"\bfn (\w+)(?:<[^()]*>)?\(")
ITSELF = re.compile(r"\s*(?:&(?:'\w+ )?)?(?:mut )?self\b")
FOR_C = re.compile(r'extern "C" fn (\w+)')


def parameters(text: str) -> int:
    """How many parameters stand at the beginning of a text that goes on behind the bracket of their list."""
    open_brackets, count = 1, int(bool(ITSELF.match(text)))
    for at, sign in enumerate(text):
        open_brackets += (sign in "([") - (sign in ")]")
        if not open_brackets:
            return count
        count += open_brackets == 1 and sign == ":" and "::" not in text[at - 1 : at + 2]
    return count


class Parameters(unittest.TestCase):
    """Of all crates' functions."""

    def test_functions_have_few(self) -> None:
        """What travels together has a type (`LinkParams` of nr_calls)."""
        sources = texts("*/src/**/*.rt")
        for_c = {name for text in sources.values() for name in FOR_C.findall(text)}
        more = [
            f"{path.relative_to(CRATES)}: {head[1]} has {parameters(text[head.end() :])}"
            for path, text in sources.items()
            for head in A_HEAD.finditer(text)
            if head[1] not in for_c and parameters(text[head.end() :]) > PARAMETERS
        ]
        self.assertEqual(more, [], f"more than {PARAMETERS} parameters")


class PublicCalls(unittest.TestCase):
    """Of all crates: README lists them (tests/generated)."""

    def test_each_is_called_or_for_callers(self) -> None:
        """A call that nobody makes is out, unless the README has a line 'For callers: .., which the program never calls'."""
        made = called()
        for path in sorted(CRATES.glob("*/README.md")):
            readme = path.read_text()
            calls = public_calls(readme)
            named = set(re.findall(r"`(\w+)`", "".join(FOR_CALLERS.findall(readme))))
            with self.subTest(crate=path.parent.name):
                self.assertEqual(sorted(calls - made - named), [], "nobody calls these, and they are not said to be for callers")
                self.assertEqual(sorted(named - calls), [], "no public calls")


def one_by_one(text: str) -> str:
    """A text with each name of a `use` line behind its whole path."""
    return re.sub(r"([\w.]+\.)\{([^}]*)\}", lambda found: found[1] + found[2].replace(", ", f", {found[1]}"), text)


class Lemmas(unittest.TestCase):
    """Of all crates."""

    def test_each_lemma_is_cited(self) -> None:
        """A name that stands in its own clauses alone serves nobody."""
        cited: typing.Dict[str, int] = {}
        for pattern in ("*/proofs/**/*.antt", "*/specs/**/*.antt", "*/src/**/*.rt"):
            for text in texts(pattern).values():
                for name in re.findall(NAME, text):
                    cited[name] = cited.get(name, 0) + 1
        for path, text in lemma_files("*/proofs/**/*.antt").items():
            for name in re.findall(rf"^(?:pub )?({NAME}) :", text, re.MULTILINE):
                own = len(re.findall(rf"^(?:pub )?{re.escape(name)}(?=[ :])", text, re.MULTILINE))
                self.assertGreater(cited[name], own, f"{path.relative_to(CRATES)}: nobody cites {name}")

    def test_each_lemma_is_stated_once(self) -> None:
        """A lemma that two files need stands in the lowest crate that can lend it to both."""
        stated: typing.Dict[str, typing.List[str]] = {}
        for path, text in texts("*/proofs/**/*.antt").items():
            for name, statement in statements(text):
                stated.setdefault(by_places(statement), []).append(f"{path.relative_to(CRATES)}: {name}")
        twice = [names for names in stated.values() if len(names) > 1]
        self.assertEqual(twice, [], "lemmas with one statement")

    def test_public_proof_modules_serve_another_crate(self) -> None:
        """`pub mod` in proofs/Lib.antt promises a module to the crates above."""
        users: typing.Dict[str, typing.Set[str]] = {}
        for pattern in ("*/proofs/**/*.antt", "*/specs/**/*.antt", "*/src/**/*.rt"):
            for path, text in texts(pattern).items():
                user = path.relative_to(CRATES).parts[0]
                for crate, module in re.findall(rf"Rattle\.(\w+)\.proofs\.({NAME})", one_by_one(text)):
                    if crate != user:
                        users.setdefault(f"{crate} {module}", set()).add(user)
        for path, text in texts("*/proofs/Lib.antt").items():
            crate = path.relative_to(CRATES).parts[0]
            for public, module in re.findall(rf"^(pub )?mod ({NAME})$", text, re.MULTILINE):
                wanted = f"{crate} {module}" in users
                self.assertEqual(bool(public), wanted, f"{crate}: mod {module} of its proofs")
