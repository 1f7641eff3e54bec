"""Requests that a server takes one after another, and the payloads that each leaves."""
from dataclasses import dataclass

from refusing.folders import ID, patch
from refusing.requests import request
from stopping.judging import State


@dataclass(frozen=True)
class Effect:
    """A request that is accepted, and the payload that it leaves in a file."""

    sent: bytes
    file: int
    payload: bytes


def chained(first: int, last: int) -> list[bytes]:
    """The patches of these numbers, each behind the one before it."""
    return [patch(number, number - 1 if number > 1 else None) for number in range(first, last + 1)]


def append(path: str, slot: int, payload: bytes) -> Effect:
    return Effect(request("POST", path, payload), slot, payload)


def operation(text: str, payload: str) -> Effect:
    return Effect(request("POST", "/$/rpc", text.encode()), 0, payload.encode())


def create(slot: int, name: str) -> Effect:
    id, uri = ID(100 + slot), f"http://e/{slot}"
    text = f'{{"operation":"create","name":"{name}","uri":"{uri}","id":"{id}"}}'
    return operation(text, f"C {slot} {id} {name} {uri}")


def rename(slot: int, name: str, new: str) -> Effect:
    return operation(f'{{"operation":"rename","name":"{name}","new_name":"{new}"}}', f"R {slot} {new}")


def remove(slot: int, name: str) -> Effect:
    return operation(f'{{"operation":"remove","name":"{name}"}}', f"D {slot}")


def ten_appends() -> list[Effect]:
    """Ten patches one by one, behind the creation of their source."""
    return [create(1, "ABC"), *(append("/ABC", 1, text) for text in chained(1, 10))]


def ten_calls() -> list[Effect]:
    """Ten calls of the registry."""
    renamed = [rename(1, *names) for names in (("a", "c"), ("c", "a")) * 3]
    return [create(1, "a"), create(2, "b"), *renamed, remove(2, "b"), rename(1, "a", "b")]


def mixed() -> list[Effect]:
    """Runs and single patches in two logs, and calls of the registry between them."""
    texts = chained(1, 10)
    run, short = b"".join(texts[2:6]), b"H id <uuid:%s> .\n" % ID(11).encode()
    return [
        create(1, "ABC"), append("/ABC/run", 1, b"".join(texts[:2])), append("/ABC/run", 1, run), create(2, "DEF"),
        append("/DEF", 2, short), append("/ABC", 1, texts[6]), rename(1, "ABC", "GHI"),
        append("/GHI/run", 1, b"".join(texts[7:10])), remove(2, "DEF"),
    ]


def states(effects: list[Effect], before: State) -> list[State]:
    """The payloads of all files before the first request and behind each."""
    found = [before]
    for effect in effects:
        state = found[-1]
        found.append({**state, effect.file: [*state[effect.file], effect.payload]})
    return found
