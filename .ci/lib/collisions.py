"""Labels whose hashes collide for a seed that everybody knows: that of std's FoldHasher, and `Seed::fixed` of am_seed.

`text(kind, count)` gives an input for `hostile.py`: lines of `am-dispatch`, a scenario of `am-run` or a story of `am-rehearse`.
"""
import json
import random
from collections.abc import Callable

from .rows import Json
from .stories import config

MASK = (1 << 64) - 1


def word(data: bytes, at: int) -> int:
    """The word of eight bytes from a place on."""
    return int.from_bytes(data[at:at + 8], "little")


def turned(number: int, bits: int) -> int:
    """A word whose bits are turned to the left."""
    return (number << bits | number >> (64 - bits)) & MASK


def sip_hash(data: bytes) -> int:
    """SipHash-1-3 with both keys 0, as `DefaultHasher` computes it."""
    v = [0x736F6D6570736575, 0x646F72616E646F6D, 0x6C7967656E657261, 0x7465646279746573]

    def mix() -> None:
        v[0] = (v[0] + v[1]) & MASK
        v[2] = (v[2] + v[3]) & MASK
        v[1], v[3] = turned(v[1], 13) ^ v[0], turned(v[3], 16) ^ v[2]
        v[2], v[0] = (v[2] + v[1]) & MASK, (turned(v[0], 32) + v[3]) & MASK
        v[1], v[3] = turned(v[1], 17) ^ v[2], turned(v[3], 21) ^ v[0]
        v[2] = turned(v[2], 32)

    whole = len(data) // 8 * 8
    last = int.from_bytes(data[whole:], "little") | (len(data) & 0xFF) << 56
    for each in [word(data, at) for at in range(0, whole, 8)] + [last]:
        v[3] ^= each
        mix()
        v[0] ^= each
    v[2] ^= 0xFF
    for _ in range(3):
        mix()
    return v[0] ^ v[1] ^ v[2] ^ v[3]


class Known:
    """A hasher whose start is known: the state before texts of so many bytes, and the second factor."""

    def __init__(self, before: Callable[[int], int], factor: int) -> None:
        self.before, self.factor = before, factor

    def mixed(self, state: int, data: bytes, at: int) -> int:
        """The state after the 16 bytes from a place on."""
        product = (word(data, at) ^ state) * (word(data, at + 8) ^ self.factor)
        return (product ^ product >> 64) & MASK

    def written(self, data: bytes) -> int:
        """The hash of a text, as `write` leaves it. The texts here have more than 16 bytes."""
        state, at = self.before(len(data)), 0
        while len(data) - at > 16:
            state, at = self.mixed(state, data, at), at + 16
        return self.mixed(state, data, len(data) - 16)


def folded(one: int, other: int) -> int:
    """The two halves of a product, one over the other."""
    product = one * other
    return (product ^ product >> 64) & MASK


STD_START, STD_FACTOR = 0x243F6A8885A308D3, 0x9E3779B97F4A7C15
FIXED_START, FIXED_FACTOR = [sip_hash(bytes(8) + bytes([place])) for place in range(2)]


def std(start: int) -> Known:
    """std's hasher in this state."""
    return Known(lambda size: (start + size) & MASK, STD_FACTOR)


def fixed(start: int) -> Known:
    """The hasher of `Seed::fixed` in this state."""
    return Known(lambda size: turned(start, size % 64), FIXED_FACTOR)


# Before a label set, and behind the number of the first route, of four bytes, which comes before the labels of a group.
STD, FIXED = std(STD_START), fixed(FIXED_START)
STD_GROUP = std(folded(STD_START, STD_FACTOR ^ 8))
FIXED_GROUP = fixed(folded(turned(FIXED_START, 4), FIXED_FACTOR))


def colliding(known: Known, head: bytes, tail: bytes, count: int) -> list[str]:
    """Texts `head` + value + `tail` of one hash, as their values.

    A value has a word that equals the state before it. Then the product is zero, whatever the next word is.
    """
    chance = random.Random(1)
    pad = -len(head) % 16 or 16
    rest = bytes(97 + i % 26 for i in range(16 - len(tail)))
    size = len(head) + pad + 16 + len(rest) + len(tail)
    while True:
        front = bytes(chance.randrange(97, 123) for _ in range(pad))
        state, at = known.before(size), 0
        while at < len(head) + pad:
            state, at = known.mixed(state, head + front, at), at + 16
        zero = state.to_bytes(8, "little")
        if all(0x20 < byte < 0x7F for byte in zero):
            break
    values = [front + zero + b"%08d" % i + rest for i in range(count)]
    assert len({known.written(head + value + tail) for value in values[:100]}) == 1
    return [value.decode() for value in values]


def label_sets(known: Known, count: int) -> list[dict[str, str]]:
    """Label sets that collide."""
    return [{"kind": "node", "value": value} for value in colliding(known, b"kind\0node\0value\0", b"\0", count)]


def insert(labels: dict[str, str]) -> Json:
    """The line that inserts an alert."""
    return {"insert": {"now": 0, "labels": labels}}


def lines_of_sets(known: Known, count: int) -> list[Json]:
    """Lines of am-dispatch: alerts of one group."""
    return [{"config": config(["kind"])}, *map(insert, label_sets(known, count))]


def lines_of_sources(known: Known, count: int) -> list[Json]:
    """Lines of am-dispatch: sources of a rule and a flush of targets, half of each, whose values under `equal` collide and differ."""
    rule = {"source": [["kind", "=", "source"]], "target": [["kind", "=", "target"]], "equal": ["value"]}
    values = enumerate(colliding(known, b"", b"", count))
    alerts = [insert({"kind": "source" if i % 2 else "target", "value": value}) for i, value in values]
    return [{"config": config(["kind"], inhibit=[rule])}, *alerts, *[{"begin": {"now": 30000}}] * 2]


def scenario_of_sets(known: Known, count: int) -> list[Json]:
    """A scenario of am-run: alerts of one group."""
    calls = [{"insert": {"labels": [*labels.items()], "starts": 0}} for labels in label_sets(known, count)]
    return [{"config": config(["kind"]), "phases": [{"at": 0, "lanes": [calls]}, {"at": 30000, "flush": True}]}]


def story_of_sets(known: Known, count: int) -> list[Json]:
    """A story of am-rehearse: alerts of one group, and a new dispatcher."""
    alerts = [{"labels": labels} for labels in label_sets(known, count)]
    return [{"config": config(["kind"]), "until": "2m", "alerts": alerts, "restart": [{"at": "1m", "keeps": "log"}]}]


def story_of_groups(known: Known, count: int) -> list[Json]:
    """A story of am-rehearse: groups of an alert each, whose labels collide, and 120 flushes of each."""
    own = config(["kind", "value"])
    own["route"]["group_interval"] = "15s"
    return [{"config": own, "until": "30m", "alerts": [{"labels": labels} for labels in label_sets(known, count)]}]


# What makes an input, and the hashers for which its labels collide: that of std, and that of `Seed::fixed`.
MADE: dict[str, tuple[Callable[[Known, int], list[Json]], Known, Known]] = {
    "label sets": (lines_of_sets, STD, FIXED),
    "sources": (lines_of_sources, STD, FIXED),
    "scenario": (scenario_of_sets, STD, FIXED),
    "story": (story_of_sets, STD, FIXED),
    "story of groups": (story_of_groups, STD_GROUP, FIXED_GROUP),
}


def text(kind: str, count: int) -> str:
    """The input of a kind, such as `scenario`, or `scenario, fixed`."""
    name, _, seed = kind.partition(", ")
    made, of_std, of_fixed = MADE[name]
    return "".join(json.dumps(line) + "\n" for line in made(of_fixed if seed == "fixed" else of_std, count))
