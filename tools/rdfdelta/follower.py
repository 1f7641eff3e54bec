"""An rdflib Dataset that is kept in step with a log, both ways."""
from __future__ import annotations

from collections.abc import Iterable

from rdflib import BNode, Dataset, Graph, URIRef
from rdflib import Literal as RdfLiteral
from rdflib.graph import DATASET_DEFAULT_GRAPH_ID
from rdflib.term import Node

from rdfdelta import errors
from rdfdelta.answers import Appended
from rdfdelta.patches import PATCH_LIMIT, changes, compose, cut, draw_id, read_link
from rdfdelta.rows import XSD_STRING, Blank, Iri, Literal, Row, Term, is_iri, is_label
from rdfdelta.server import Log

Quad = tuple[Term, ...]


def to_node(term: Term) -> Node:
    """A term as rdflib has it; a literal keeps its form, and a blank node its label."""
    match term:
        case Iri(value):
            return URIRef(value)
        case Blank(label):
            return BNode(label)
        case Literal(value, language, datatype):
            kind = None if datatype is None else URIRef(datatype)
            return RdfLiteral(value, lang=language, datatype=kind, normalize=False)


def to_term(node: Node) -> Term:
    """A node of rdflib as patches have it."""
    if isinstance(node, URIRef):
        if not is_iri(str(node)):
            raise errors.RdfDeltaError(f"no IRI: {node}")
        return Iri(str(node))
    if isinstance(node, BNode):
        if not is_label(str(node)):
            raise errors.RdfDeltaError(f"no label of a blank node: {node}")
        return Blank(str(node))
    if isinstance(node, RdfLiteral):
        if node.language:
            return Literal(str(node), language=node.language.lower())
        datatype = None if node.datatype is None or str(node.datatype) == XSD_STRING else str(node.datatype)
        return Literal(str(node), datatype=datatype)
    raise errors.RdfDeltaError(f"no term of RDF: {node!r}")


def quads_of(dataset: Dataset) -> set[Quad]:
    """The quads of a dataset; those of the default graph have three terms."""
    found: set[Quad] = set()
    for s, p, o, graph in dataset.quads((None, None, None, None)):
        # The default graph is told by none or by its name, as the version of rdflib has it.
        name: Quad = () if graph in (None, DATASET_DEFAULT_GRAPH_ID) else (to_term(graph),)
        found.add((to_term(s), to_term(p), to_term(o), *name))
    return found


class Follower:
    """A log and a dataset that takes its patches. What the dataset has beside them are changes, which `push` appends.

    Prefixes of the default graph are bound in the dataset; all are in `prefixes`, by prefix and graph.
    """

    def __init__(self, log: Log, dataset: Dataset | None = None) -> None:
        self.log = log
        self.dataset = Dataset() if dataset is None else dataset
        self.version = 0
        self.head: str | None = None
        self.prefixes: dict[tuple[str, Term | None], str] = {}
        self._quads: set[Quad] = set()

    def catch_up(self) -> int:
        """Takes the log's patches behind the follower's version; the version then. The dataset's own changes stay."""
        state = self.log.state()
        if state.version < self.version or (state.version == self.version and state.head != self.head):
            found = f"have {self.version}, log {state.version}"
            raise errors.Parted(f"{self.log.name} isn't the log that was followed: {found}")
        for version, patch in self.log.patches(self.version, state.version):
            link = read_link(patch)
            if link.prev != self.head:
                raise errors.Parted(f"{self.log.name}: patch {version} follows {link.prev}, and not {self.head}")
            self._take(changes(patch))
            self.version, self.head = version, link.id
        self.log.server.rest()
        return self.version

    def changes(self) -> list[str]:
        """The rows that make the dataset of the log's: first those that delete, then those that add."""
        self._settle()
        now = quads_of(self.dataset)
        return [*_rows("D", self._quads - now), *_rows("A", now - self._quads)]

    def push(self) -> Appended | None:
        """Appends the dataset's changes behind the follower's version, as one patch; none where there are none. Where
        the log went on meanwhile it is a `Conflict`: catch up, look, and push again."""
        rows = self.changes()
        if not rows:
            return None
        pieces = list(cut(rows, PATCH_LIMIT))
        if len(pieces) > 1:
            raise errors.RdfDeltaError(f"the changes are too many for one patch: they would take {len(pieces)}")
        patch_id = draw_id()
        try:
            stands = self.log.append(compose(patch_id, self.head, rows))
        finally:
            self.log.server.rest()
        self._quads = quads_of(self.dataset)
        self.version, self.head = stands.version, patch_id
        return stands

    def _take(self, rows: list[Row]) -> None:
        for row in rows:
            match row.code:
                case "A":
                    self._quads.add(row.parts)
                    self._graph(row.parts).add(_triple(row.parts))
                case "D":
                    self._quads.discard(row.parts)
                    self._graph(row.parts).remove(_triple(row.parts))
                case _:
                    self._take_prefix(row)

    def _take_prefix(self, row: Row) -> None:
        prefix, *rest = row.parts
        name = prefix.value if isinstance(prefix, Literal) else ""
        graph = rest[-1] if len(rest) == (2 if row.code == "PA" else 1) else None
        if row.code == "PD":
            self.prefixes.pop((name, graph), None)
        elif isinstance(rest[0], Iri):
            self.prefixes[name, graph] = rest[0].value
            if graph is None:
                self.dataset.bind(name, URIRef(rest[0].value), replace=True)

    def _settle(self) -> None:
        """Has the default graph hold what updates of SPARQL put into it: rdflib names that graph as the dataset."""
        stray = self.dataset.get_context(self.dataset.identifier)
        for triple in list(stray):
            self._graph(()).add(triple)
            stray.remove(triple)

    def _graph(self, quad: Quad) -> Graph:
        name = to_node(quad[3]) if len(quad) == 4 else DATASET_DEFAULT_GRAPH_ID
        graph: Graph = self.dataset.graph(name)
        return graph


def _triple(quad: Quad) -> tuple[Node, Node, Node]:
    return to_node(quad[0]), to_node(quad[1]), to_node(quad[2])


def _rows(code: str, quads: Iterable[Quad]) -> list[str]:
    return sorted(f"{code} {' '.join(map(str, quad))} ." for quad in quads)
