"""Rows are read as the program reads them."""
from __future__ import annotations

import pytest

from rdfdelta import errors
from rdfdelta.patches import changes, compose, cut, follow_on, read_link
from rdfdelta.program import Program
from rdfdelta.rows import read_rows

HEAD = b"H id <uuid:00000000-0000-4000-8000-000000000001> .\n"
TEXTS = [
    b"A <http://e/s> <http://e/p> <http://e/o> .",
    b"A<http://e/s><http://e/p>\"chat\"@FR-be _:g.",
    b"A _:a.b <http://e/p> \"a\\n\\\"\\u00e9\" . # behind\nD <_:x> <http://e/p> \"1\"^^<http://e/int> .",
    b"A _:a:b <http://e/p> \"\"  ^^  <http://www.w3.org/2001/XMLSchema#string> .",
    b"PA ex <http://e/> . PA ex: \"http://e/\" . PA : <http://e/> <http://g> . PD \"ex\" . PD : _:g .",
    b"TX . TC . TX. A <a:> <a:b>\n<a:c>. TA .",
    b"H note \"x\" . H a-b_1 _:z .",
    b"A <http://e/\\u0041> <http://e/p> \"\xf0\x9f\x98\x80\" .",
    b"",
    b"A <a> <http://e/p> <http://e/o> .",
    b"A \"x\" <http://e/p> <http://e/o> .",
    b"A <http://e/s> _:p <http://e/o> .",
    b"A <http://e/s> <http://e/p> <http://e/o> \"g\" .",
    b"A <http://e/s> <http://e/p> .",
    b"A <http://e/s> <http://e/p> <http://e/o> <http://e/g> <http://e/h> .",
    b"A <http://e/s> <http://e/p> \"\\ud800\" .",
    b"A <http://e/s> <http://e/p> \"a\nb\" .",
    b"A <http://e/s> <http://e/p> \"\\x\" .",
    b"A <http://e/\\u0020> <http://e/p> \"\" .",
    b"A <http://e/s> <http://e/p> \"\"@ .",
    b"A <http://e/s> <http://e/p> \"x\"@e-1-b2 .",
    b"A <http://e/s> <http://e/p> \"x\"^^<http://www.w3.org/1999/02/22-rdf-syntax-ns#langString> .",
    b"A <http://e/s> <http://e/p> ex:o .",
    b"A <http://e/s> <http://e/p> 1 .",
    b"A <http://e/s> <http://e/p> _:a. .",
    b"A <_:-> <http://e/p> <http://e/o> .",
    b"A <_:\\u0061> <http://e/p> <\\u005f:b> .",
    b"A <_:\\u0020> <http://e/p> <http://e/o> .",
    b"A <_> <http://e/p> <http://e/o> .",
    b"A <http://e/s> <_:a> <http://e/o> .",
    b"A <http://e/s> <http://e/p> \"\"^^<_:a> .",
    b"PA \"ex\"@en <http://e/> .",
    b"PA ex \"e\" .",
    b"PA ex \"http://e/\\\\\" .",
    b"PA 1x <http://e/> .",
    b"PD ex \"g\" .",
    b"Z .",
    b"ax .",
    b"A <http://e/s> <http://e/p> <http://e/o>",
    b"TX TC .",
    b"\xff",
]


@pytest.mark.parametrize("text", TEXTS)
def test_rows_are_those_of_the_program(program: Program, text: bytes) -> None:
    try:
        rows = list(read_rows(text))
    except errors.BadPatch:
        rows = None
    try:
        program.run("replay", source=HEAD + text)
        is_read = True
    except errors.ProgramFailed as failed:
        # A header behind the first one is a matter of patches, and not of rows.
        is_read = failed.status != 3
    assert (rows is not None) == is_read


def test_a_fault_has_its_place() -> None:
    with pytest.raises(errors.BadPatch, match="line 2 byte 7: no row begins here") as found:
        list(read_rows("# \u00e9\n  Z .".encode()))
    assert (found.value.at, found.value.line) == (7, 2)


@pytest.mark.parametrize("value", [
    "<uuid:{}>", "<urn:uuid:{}>", '"{}"', '"urn:uuid:{}"', '"{{{}}}"', "<uuid:urn:uuid:{}>", '"URN:uuid:{}"',
])
def test_ids_have_their_forms(value: str) -> None:
    number = "00000000-0000-4000-8000-00000000000a"
    assert read_link(f"H id {value.format(number)} . TX . TC .".encode()).id == number
    assert read_link(f"H id \"{number.replace('-', '')}\" .".encode()).id == number


@pytest.mark.parametrize("text", [
    b"TX . TC .", b"TX . H id \"00000000-0000-4000-8000-000000000001\" .", b"H id \"1\" .",
    b"H id \"00000000-0000-4000-8000-000000000001\"@en .", b"H id <urn:00000000-0000-4000-8000-000000000001> .",
    b"H id \"uuid:00000000-0000-4000-8000-000000000001\" .", b"H id _:a .", HEAD + HEAD, HEAD + b"H prev \"x\" .",
])
def test_no_link(text: bytes) -> None:
    with pytest.raises(errors.BadPatch):
        read_link(text)


def test_changes_are_those_that_take_effect() -> None:
    text = HEAD + b"A <a:1> <a:p> <a:o> . TX . D <a:2> <a:p> <a:o> . TA . TX . PD x . TC ."
    text += b" TX . TA . D <a:3> <a:p> <a:o> ."
    assert [(row.code, str(row.parts[0])) for row in changes(text)] == [("A", "<a:1>"), ("PD", '"x"'), ("D", "<a:3>")]


def test_pieces_stay_below_the_limit() -> None:
    rows = [f'A <http://e/s> <http://e/p> "{number}\u00e9" .' for number in range(100)]
    pieces = list(cut(rows, 400))
    sizes = [len(compose(HEAD[12:48].decode(), HEAD[12:48].decode(), piece)) for piece in pieces]
    assert sum(pieces, []) == rows and max(sizes) <= 400 and min(sizes[:-1]) > 400 - 2 * len(rows[-1])
    with pytest.raises(errors.RdfDeltaError, match="longer than a patch may be"):
        list(cut(rows, 130))


def test_a_patch_goes_on_under_other_ids() -> None:
    text = HEAD + b"H note \"x\" . TX . A <a:1> <a:p>\n <a:o> . # c\n TC ."
    new = follow_on(text, "00000000-0000-4000-8000-000000000002", "00000000-0000-4000-8000-000000000003")
    link = read_link(new)
    assert (link.id[-1], link.prev and link.prev[-1]) == ("2", "3")
    assert [row.text for row in read_rows(new)][2:] == ['H note "x" .', "TX .", "A <a:1> <a:p>\n <a:o> .", "TC ."]
