"""PyYAML's safe loader with the scalars of the core schema, and documents that PyYAML writes."""
import contextlib
import importlib
import importlib.util
import json
import math
import random
import re
from typing import Any

from .rows import Json

# (its types are no part of Debian's package)
yaml: Any = importlib.import_module("yaml") if importlib.util.find_spec("yaml") else None

PATTERNS = {
    "null": r"^(?:~|null|Null|NULL|)$",
    "bool": r"^(?:true|True|TRUE|false|False|FALSE)$",
    "int": r"^(?:[-+]?[0-9]+|0o[0-7]+|0x[0-9a-fA-F]+)$",
    "float": r"^(?:[-+]?(?:\.[0-9]+|[0-9]+(?:\.[0-9]*)?)(?:[eE][-+]?[0-9]+)?|[-+]?\.(?:inf|Inf|INF)|\.(?:nan|NaN|NAN))$",
    "merge": r"^<<$",
}
WORDS = ["", "a", "match", "team", "5m", "yes", "null", "true", "12", "-3", "1.5", "0x1f", "a: b", "# no", "- x", "two words", "x\ny",
         " lead", "'q'", '"d"', "é", "...", "a#b", "*", "{x}", "[", "09:30", "1e3", "~"]
KEYS = ["a", "b", "name", "x y", "route", "k1"]
CHANGES = ["", " ", "\n", ":", "- ", "#", "'", '"', "[", "}", ",", "&a ", "*a", "|\n", ">", "\t", "? ", "!x "]


class Refused(Exception):
    """The text isn't YAML, or has what JSON hasn't."""


def has_yaml() -> bool:
    """Whether PyYAML is there."""
    return yaml is not None


def integer(loader: Any, node: Any) -> int | float:
    """A whole number. (am-rehearse reads one that isn't in plain decimal digits as a float.)"""
    text = loader.construct_scalar(node)
    if text[:2] in ("0x", "0o"):
        return float(int(text, 0))
    return float(text) if text[0] == "+" or text == "-0" else int(text, 10)


def decimal(loader: Any, node: Any) -> float:
    """A number with a fraction or an exponent."""
    text = loader.construct_scalar(node).lower()
    found = float(text.replace(".inf", "inf").replace(".nan", "nan"))
    if not math.isfinite(found):
        raise Refused("no JSON number")
    return found


def as_written(node: Any) -> None:
    """Has flags and numbers below a node be the texts that they are, as am-rehearse reads them there."""
    if isinstance(node, yaml.ScalarNode):
        if node.tag.rsplit(":", 1)[1] in ("bool", "int", "float"):
            node.tag = "tag:yaml.org,2002:str"
    elif isinstance(node, yaml.SequenceNode):
        for item in node.value:
            as_written(item)
    else:
        for _, value in node.value:
            as_written(value)


def mapping(loader: Any, node: Any) -> Json:
    """A mapping. A key is its text as it is written."""
    keys = [it.value for it, _ in node.value if isinstance(it, yaml.ScalarNode)]
    if len(keys) != len(node.value) or len(keys) != len(set(keys)):
        raise Refused("a key that is no text, or stands twice")
    loader.flatten_mapping(node)
    found = {}
    for key, value in node.value:
        if key.value in ("match", "match_re"):
            as_written(value)
        found[key.value] = loader.construct_object(value, deep=True)
    return found


def core_loader() -> Any:
    """The loader."""
    core: Any = type("Core", (getattr(yaml, "CSafeLoader", yaml.SafeLoader),), {"yaml_implicit_resolvers": {}})
    for tag, pattern in PATTERNS.items():
        core.add_implicit_resolver(f"tag:yaml.org,2002:{tag}", re.compile(pattern), None)
    for tag, construct in (("int", integer), ("float", decimal), ("map", mapping)):
        core.add_constructor(f"tag:yaml.org,2002:{tag}", construct)
    return core


def value_of(loader: Any, text: str) -> Json:
    """The value of a JSON text, or what PyYAML gives another text, or Refused."""
    with contextlib.suppress(ValueError):
        return json.loads(text)
    try:
        return yaml.load(text, Loader=loader)
    except (yaml.YAMLError, Refused, ValueError, TypeError, RecursionError, AttributeError) as fault:
        raise Refused(str(fault)) from None


def is_same(ours: Json, theirs: Json) -> bool:
    """Whether two values are the same, also by their kinds."""
    if isinstance(theirs, bool) or theirs is None or isinstance(ours, bool) or ours is None:
        return ours is theirs
    if isinstance(theirs, dict):
        return isinstance(ours, dict) and ours.keys() == theirs.keys() and all(is_same(ours[k], theirs[k]) for k in theirs)
    if isinstance(theirs, list):
        return isinstance(ours, list) and len(ours) == len(theirs) and all(map(is_same, ours, theirs))
    return type(ours) is type(theirs) and bool(ours == theirs)


def random_value(chance: random.Random, depth: int) -> Json:
    """A value, of lists and mappings so deep at most."""
    kind = chance.randrange(8 if depth else 5)
    if kind < 4:
        return chance.choice([*WORDS, None, True, False, 7, -12, 2.5, 10**12])
    if kind == 4:
        return " ".join(chance.choice(WORDS) for _ in range(chance.randrange(12)))
    if kind < 6:
        return [random_value(chance, depth - 1) for _ in range(chance.randrange(4))]
    return {chance.choice(KEYS): random_value(chance, depth - 1) for _ in range(chance.randrange(4))}


def random_text(chance: random.Random) -> str:
    """A document that PyYAML writes in a random style, as it is or with a change in its characters."""
    style = {
        "default_flow_style": chance.choice([True, False, None]),
        "indent": chance.choice([2, 3, 4]),
        "width": chance.choice([10, 40, 1000]),
        "allow_unicode": chance.choice([True, False]),
        "explicit_start": chance.choice([True, False]),
    }
    text = str(yaml.safe_dump(random_value(chance, 3), **style))
    if chance.random() < 0.5:
        return text
    at = chance.randrange(len(text) + 1)
    return text[:at] + chance.choice(CHANGES) + text[at + chance.randrange(3) :]
