"""An rdflib Dataset in step with a log, both ways."""
from __future__ import annotations

import pytest

pytest.importorskip("rdflib")

from rdflib import BNode, Dataset, Literal, URIRef

from conftest import Running, patch
from rdfdelta import Conflict, Follower, Parted
from rdfdelta.datasets import of_log
from rdfdelta.follower import quads_of
from rdfdelta.program import Program

S, P = URIRef("http://e/s"), URIRef("http://e/p")
ROWS = """A <http://e/s> <http://e/p> "chat"@FR _:g .
A <_:a> <http://e/p> "01"^^<http://www.w3.org/2001/XMLSchema#integer> .
A <http://e/\\u00e9> <http://e/p> "a\\n\\"\\\\" <http://e/g> .
D <http://e/s> <http://e/p> "1" .
PA ex <http://e/> .
PA g <http://e/g#> <http://e/g> .
"""


def lines_of(running: Running, program: Program) -> list[str]:
    log = running.client.log("ABC")
    return of_log(program, log, log.state().version, lambda done, total: None)


def printed(dataset: Dataset) -> list[str]:
    quads = (" ".join(map(str, quad)) + " ." for quad in quads_of(dataset))
    return sorted(quads, key=str.encode)


def test_the_dataset_is_the_replay_of_the_log(running: Running, program: Program) -> None:
    running.fill("ABC", 1)
    follower = Follower(running.client.log("ABC"))
    assert follower.catch_up() == 1 and (S, P, Literal("1")) in follower.dataset and len(follower.dataset) == 1
    running.client.log("ABC").append(patch(2, ROWS))
    assert follower.catch_up() == 2
    assert printed(follower.dataset) == lines_of(running, program) and follower.changes() == []
    assert (S, P, Literal("chat", lang="fr")) in follower.dataset.graph(BNode("g"))
    assert dict(follower.dataset.namespaces())["ex"] == URIRef("http://e/")
    assert len(follower.prefixes) == 2


def test_what_is_changed_in_the_dataset_is_pushed(running: Running, program: Program) -> None:
    running.fill("ABC", 1)
    follower = Follower(running.client.log("ABC"))
    follower.catch_up()
    assert follower.push() is None
    follower.dataset.remove((S, P, Literal("1"), None))
    follower.dataset.graph(URIRef("http://e/g")).add((BNode("b"), P, Literal('"\n\\')))
    follower.dataset.add((S, P, Literal("x", datatype=URIRef("http://www.w3.org/2001/XMLSchema#string"))))
    stands = follower.push()
    assert stands is not None and stands.version == follower.version == 2
    assert printed(follower.dataset) == lines_of(running, program) and follower.push() is None


def test_updates_of_sparql_are_pushed(running: Running, program: Program) -> None:
    running.fill("ABC", 1)
    follower = Follower(running.client.log("ABC"))
    follower.catch_up()
    follower.dataset.update('INSERT DATA { <http://e/a> <http://e/b> "c" . GRAPH <http://e/g> { <a:s> <a:p> _:x } }')
    follower.dataset.update("DELETE WHERE { <http://e/s> ?p ?o }")
    rows = follower.changes()
    assert rows[0] == 'D <http://e/s> <http://e/p> "1" .' and 'A <http://e/a> <http://e/b> "c" .' in rows[1:]
    assert follower.push() is not None and follower.changes() == []
    assert printed(follower.dataset) == lines_of(running, program) and len(lines_of(running, program)) == 2


def test_a_conflict_keeps_both_sides(running: Running, program: Program) -> None:
    running.fill("ABC", 1)
    follower = Follower(running.client.log("ABC"))
    follower.catch_up()
    follower.dataset.add((S, P, Literal("mine")))
    running.fill("ABC", 1, begin=2)
    with pytest.raises(Conflict):
        follower.push()
    assert follower.catch_up() == 2 and follower.changes() == ['A <http://e/s> <http://e/p> "mine" .']
    follower.push()
    assert printed(follower.dataset) == lines_of(running, program)


def test_another_log_is_refused(running: Running) -> None:
    running.fill("ABC", 2)
    follower = Follower(running.client.log("ABC"))
    follower.catch_up()
    running.client.rename("ABC", "old")
    running.client.create("ABC", "http://e/")
    with pytest.raises(Parted):
        follower.catch_up()
    for number in (11, 12, 13):
        running.client.log("ABC").append(patch(number, behind=number - 1 if number > 11 else 0))
    with pytest.raises(Parted, match="patch 3 follows"):
        follower.catch_up()
