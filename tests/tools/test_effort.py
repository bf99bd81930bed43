"""The work of the tools on sources and sessions that somebody chose to make them slow: it grows as the text does. It is counted, so the
tests do not depend on the machine."""

import random
import unittest
from unittest import mock

from galluspa.assembler.assembly import SUGGESTIONS, assembled
from galluspa.assembler import statements
from galluspa.assembler.statements import statement_of
from galluspa.assembler.tokens import Token, tokens_of
from galluspa.formats.alike import alike_of, are_alike
from galluspa.formats.sessionfaults import TOKEN, parsed
from tests.tools.samples import calls_of

# What four times as much of a text may take, as a multiple.
FOUR_TIMES = 4.5


class Tokens(list[Token]):
    """The tokens of a line, which count how many of them are read or copied."""

    read = 0

    def __getitem__(self, at):  # type: ignore[no-untyped-def]
        Tokens.read += len(range(*at.indices(len(self)))) if isinstance(at, slice) else 1
        found = super().__getitem__(at)
        return Tokens(found) if isinstance(at, slice) else found


def read_tokens(labels: int) -> int:
    """Returns how many tokens are read to take a line of a number of labels apart; one that is read twice counts twice."""
    Tokens.read = 0
    with mock.patch.object(statements, "tokens_of", lambda line: Tokens(tokens_of(line))):
        statement = statement_of(1, " ".join(f"l{at}:" for at in range(labels)))
    assert len(statement.labels) == labels
    return Tokens.read


def undefined(number: int) -> str:
    """Returns a source with a number of labels and as many undefined names."""
    return "\n".join(f"label{at}: word other{at}" for at in range(number))


class EffortTest(unittest.TestCase):
    def test_labels_in_one_line(self) -> None:
        least, most = read_tokens(500), read_tokens(2000)
        self.assertGreaterEqual(least, 1000)
        self.assertLess(most, FOUR_TIMES * least)

    def test_names_that_are_not_defined(self) -> None:
        least, most = (calls_of(assembled, undefined(number)) for number in (100, 400))
        self.assertLess(most, FOUR_TIMES * least)
        many = SUGGESTIONS + 50
        it = assembled("\n".join(["first: word 1", *("word firts" for _ in range(many))]))
        self.assertEqual(sum(problem.text.endswith("did you mean first?") for problem in it.problems), SUGGESTIONS)
        self.assertEqual(len(it.problems), many)

    def test_the_first_name_that_is_alike_is_meant(self) -> None:
        """As a comparison with each of the names says."""
        source = random.Random(3)
        found = 0
        for _ in range(3000):
            names = list(dict.fromkeys("".join(source.choices("aAb", k=source.randint(1, 5))) for _ in range(source.randint(0, 9))))
            spelled: dict[str, tuple[int, str]] = {}
            for at, name in enumerate(names):
                spelled.setdefault(name.upper(), (at, name))
            name = "".join(source.choices("aAb1", k=source.randint(1, 5))) + source.choice(("", "", "'"))
            wanted = next((it for it in names if are_alike(name, it)), "")
            self.assertEqual(alike_of(name, spelled), wanted, (name, names))
            found += bool(wanted)
        self.assertGreater(found, 500)

    def test_a_string_without_its_end(self) -> None:
        """Each sign of a session is in one token, so none is read twice."""
        for number in (1000, 4000):
            text = '{"' + '\\"' * number
            self.assertEqual([len(token[0]) for token in TOKEN.finditer(text)], [1, 2 * number + 1])
            self.assertEqual(parsed(text.encode()).found, "is wrong: Unterminated string starting at")
        source = random.Random(7)
        for _ in range(3000):
            text = "".join(source.choices('"\\{}[]a\n', k=source.randrange(12)))
            self.assertEqual("".join(token[0] for token in TOKEN.finditer(text)), text)
