#!/usr/bin/env python3
"""Prints an N-Quads document of mixed terms: documents.py QUADS [SEED [loose]].

Most of its statements are in canonical form. With the word `loose` none is: tabs stand between the terms, and strings begin with an
escape by number."""
import random
import sys

XSD = "http://www.w3.org/2001/XMLSchema#"
WORDS = "graph store patch crème naïve 漢字 server follower journal turn".split()


def object_term(draw):
    kind = draw.random()
    if kind < 0.4:
        return f"<http://example.org/resource/{draw.randrange(200000)}>"
    if kind < 0.5:
        return f"_:b{draw.randrange(100000)}"
    text = " ".join(draw.choice(WORDS) for _ in range(draw.randrange(1, 9)))
    if kind < 0.6:
        return '"' + text + r"\n\t\"quoted\" \u00E9" + '"'
    if kind < 0.75:
        return f'"{text}"@{draw.choice(["en", "EN-gb", "fr", "zh-Hant-TW"])}'
    if kind < 0.9:
        return f'"{draw.randrange(10**6)}"^^<{XSD}{draw.choice(["integer", "decimal", "string"])}>'
    return f'"{text}"'


def loosened(terms):
    """The same terms, none of them parted by one space, and their strings with an escape in front."""
    return "\t".join(rf'"\u{ord(term[1]):04X}{term[2:]}' if term[0] == '"' else term for term in terms)


def main():
    quads = int(sys.argv[1])
    draw = random.Random(int(sys.argv[2]) if len(sys.argv) > 2 else 1)
    shown = loosened if sys.argv[3:] == ["loose"] else " ".join
    write = sys.stdout.write
    for _ in range(quads):
        subject = f"<http://example.org/resource/{draw.randrange(200000)}>" if draw.random() < 0.9 else f"_:b{draw.randrange(100000)}"
        predicate = f"<http://example.org/vocabulary#property{draw.randrange(300)}>"
        graph = [f"<http://example.org/graph/{draw.randrange(50)}>"] if draw.random() < 0.5 else []
        write(f"{shown([subject, predicate, object_term(draw), *graph])} .\n")


main()
