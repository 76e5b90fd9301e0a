"""Arrays that go in and out as numbers, where the library has the calls."""
import pickle
import time
from array import array

import pytest

import kaolinsilk
from kaolinsilk import _library, boards, texts

HAS = boards.HAS_UNCOUNTED and _library.has("ks_open_with")
pytestmark = pytest.mark.skipif(not HAS, reason="the library takes no arrays as numbers")

TEXT = """\
pardo 1
rule crew
const n = 4
procs i < n
shared T[2, n]
shared A[n] = 1, 2, 3, 4
shared add = 1
code
A[i] := A[i] + add
T[1, i] := T[0, i] * 2
"""


def run(settings, text=TEXT):
    return kaolinsilk.run(text, workers=2, settings=settings)


def test_values_are_those_of_a_text_that_is_set():
    rows = [[1, 2, 3, 4], [5, 6, 7, 8]]
    for settings in (
        {},
        {"A": [3, 1, 4, 1]},
        {"A": array("I", [3, 1, 4, 1]), "add": 10},
        {"T": rows, "A": (9, 9, 9, 2**32 - 1)},
        {"n": 2, "A": [7, 8], "T": [[1, 2], [3, 4]]},
        {"n": 2, "A": "any:7:100", "T": [1, 2, 3, 4]},
        {"n": 8},
    ):
        told, wanted = run(settings), kaolinsilk.plain(TEXT, settings=settings)
        assert told == wanted and told.text == wanted.text and told.gone == wanted.gone
        assert told.values == wanted.values


def test_numpy_arrays():
    numpy = pytest.importorskip("numpy")
    for kind in ("u4", "i8", "u1", "f8", ">u4", "O"):
        given = numpy.array([3, 1, 4, 1], dtype=kind) if kind != "f8" else numpy.arange(4)[::-1]
        wanted = kaolinsilk.plain(TEXT, settings={"A": given.tolist()})
        assert run({"A": given})["A"] == wanted["A"]
    table = numpy.arange(8).reshape(4, 2).T
    assert run({"T": table})["T"] == [[0, 2, 4, 6], [0, 4, 8, 12]]
    assert run({"A": numpy.arange(4)}).array("A").tolist() == [1, 2, 3, 4]


@pytest.mark.parametrize(
    "settings, kind",
    [
        ({"A": [1, 2, 3]}, "WrongLength"),
        ({"A": []}, "WrongLength"),
        ({"T": [[1, 2], [3, 4]]}, "WrongLength"),
        ({"A": [[1, 2], [3, 4]]}, "WrongLength"),
        ({"A": [1, 2, 3, 2**32]}, "OutOfLimits"),
        ({"B": [1, 2, 3, 4]}, "UnknownName"),
        ({"i": [1, 2, 3, 4]}, "WrongKind"),
    ],
)
def test_what_does_not_fit(settings, kind):
    with pytest.raises(kaolinsilk.Refused) as told:
        run(settings)
    assert (told.value.subject, told.value.kind, told.value.name) == ("set", kind, *settings)
    with pytest.raises(kaolinsilk.Refused) as wanted:
        kaolinsilk.plain(TEXT, settings=settings)
    assert str(told.value) == str(wanted.value)


def test_a_refused_text():
    with pytest.raises(kaolinsilk.Refused) as told:
        run({"A": [1, 2, 3, 4]}, TEXT.replace(":=", "="))
    assert (told.value.subject, told.value.line) == ("text", 9)


def test_answers_and_boards():
    answer = pickle.loads(pickle.dumps(run({"A": [3, 1, 4, 1]})))
    assert answer["A"] == [4, 2, 5, 2] and "A = 4 2 5 2\n" in answer.text
    board = kaolinsilk.Board(TEXT, workers=1, counted=False, settings={"A": [3, 1, 4, 1]})
    assert board.seat().read("A[2]").value == 4 and board.cell("T[1,0]") == 4
    assert board.text == kaolinsilk.text_as_set(TEXT, {"A": [3, 1, 4, 1]}) and board.procs == 4
    lost = "pardo 1\nrule crew\nprocs i < 2\nshared A[2]\ncode\nA[A[i]] := 1\n"
    failed = run({"A": [1, 1]}, lost)
    assert failed.status == "conflict" and failed.conflict.place == "A[1]"


def test_places():
    for name, text in (("A", TEXT), ("n", TEXT), ("A", "pram 1\n"), ("A", "pardo 1\n")):
        found = _library.place_of(text.encode(), name)
        assert bool(found) == (name == "A" and text == TEXT)
    shared = texts.shared_of(TEXT.encode())
    assert shared == [
        texts.Shared("T", 0, 8, True, 4),
        texts.Shared("A", 8, 4, True),
        texts.Shared("add", 12, 1, False),
    ]


def test_half_a_million_values():
    count = 500_000
    text = f"pardo 1\nrule crew\nprocs i < 1\nshared A[{count}]\ncode\nA[0] := A[0] + 1\n"
    given = list(range(count))
    begun = time.process_time()
    answer = run({"A": given}, text)
    took = time.process_time() - begun
    assert answer["A"] == [1, *given[1:]] and took < 0.5
