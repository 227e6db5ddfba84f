"""What a pool file cannot hold: headings, labels and the texts of choices. They stand in NAME.names.json beside NAME.pool, with the pool file's digest."""

import hashlib
import json
import os
from dataclasses import asdict, dataclass, fields

from pool_file import CHOICE, KINDS
from problem import Problem

SUFFIX = ".names.json"


@dataclass
class Names:
    pool: str  # the digest of the pool file's bytes
    title: str
    label: str  # the heading of the labels, empty where no column was named
    number: str  # that of the trials' numbers, likewise
    labels: list
    objectives: list
    constraints: list
    settings: list
    choices: list  # of each setting: the texts of its choices, or null


def digest(data):
    return hashlib.sha256(data).hexdigest()


def parameters(pool):
    """The settings that occur in a pool: each (parameter number, kind, which one of these in its plan), in rising order."""
    found = set()
    for plan in pool.plans:
        found |= set(keyed(plan))
    return sorted(found)


def keyed(plan):
    """A plan's settings by parameter number, kind and which one of these it is."""
    out = {}
    for parameter, kind, value in plan.settings:
        again = sum(key[:2] == (parameter, kind) for key in out)
        out[parameter, kind, again] = value
    return out


def plain_names(pool, data, title):
    """Names made of numbers, for a pool file that comes alone."""
    way = ("minimise", "maximise")
    return Names(
        pool=digest(data),
        title=title,
        label="",
        number="number" if pool.edition == 2 else "",
        labels=[f"trial {plan.number}" if pool.edition == 2 else f"plan {at}" for at, plan in enumerate(pool.plans)],
        objectives=[f"{way[mark == 1]} {at + 1}" for at, mark in enumerate(pool.marks)],
        constraints=[f"constraint {at + 1}" for at in range(max((len(plan.constraints) for plan in pool.plans), default=0))],
        settings=[f"{KINDS[kind]} {parameter}" + (f" again {again}" if again else "") for parameter, kind, again in parameters(pool)],
        choices=[None for _ in parameters(pool)],
    )


def name_text(names):
    return json.dumps(asdict(names), indent=1, ensure_ascii=False) + "\n"


def names_path(pool_path):
    return os.path.splitext(pool_path)[0] + SUFFIX


def fits(names, plain, pool):
    """Whether names read from a file have a text wherever the pool needs one."""
    lists = ("labels", "objectives", "constraints", "settings")
    texts = all(isinstance(getattr(names, name), list) and all(isinstance(text, str) for text in getattr(names, name)) for name in lists)
    heads = all(isinstance(getattr(names, name), str) for name in ("title", "label", "number"))
    if not (texts and heads and all(len(getattr(names, name)) == len(getattr(plain, name)) for name in lists)):
        return False
    return isinstance(names.choices, list) and len(names.choices) == len(plain.choices) and all(
        choice is None or isinstance(choice, list) and all(isinstance(text, str) for text in choice) for choice in names.choices)


def find_names(pool_path, pool, data):
    """The names beside a pool file, or plain ones where there are none; and a note where those that are there do not serve."""
    plain = plain_names(pool, data, os.path.splitext(os.path.basename(pool_path))[0])
    path = names_path(pool_path)
    try:
        with open(path, encoding="utf-8") as file:
            read = json.load(file)
    except FileNotFoundError:
        return plain, None
    except (OSError, ValueError) as error:
        raise Problem(f"{path}: cannot be read ({error}). Write it anew with the pool file, or take it away.") from None
    if not isinstance(read, dict) or set(read) != {f.name for f in fields(Names)}:
        raise Problem(f"{path}: is no file of names. Write it anew with the pool file, or take it away.")
    names = Names(**read)
    if names.pool != plain.pool:
        return plain, f"{path} has the names of another pool file and is passed over."
    if not fits(names, plain, pool):
        raise Problem(f"{path}: does not fit its pool file. Write it anew with the pool file, or take it away.")
    return names, None


def setting_text(kind, value, choices, number_text):
    """A setting as a person reads it."""
    if kind == CHOICE and choices and value < len(choices):
        return choices[value]
    return number_text(value) if isinstance(value, float) else str(value)
