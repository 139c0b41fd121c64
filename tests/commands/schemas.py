"""The documents that commands write as JSON, beside the schema of each in docs/schemas, by the validator of Debian's python3-jsonschema.

A schema that accepts too much is at fault, too: in each document each value is replaced by a list of null, and each object gets a key
more, and all of these have to be refused. And the documents of a schema have all keys that it names.
"""

import functools
import itertools
import json
import os

import pytest

from tests import ROOT
from tests.programs.audited.written import schema_rows
from tests.shared import read
from tests.shared.run_files import runs_in

jsonschema = pytest.importorskip("jsonschema")
# A schema, which has the name of the command that writes such documents; for each of these its words, files, standard input and status.
ROWS = {name: [(run.words, run.files, run.input, run.status) for run in runs]
        for name, runs in itertools.groupby(runs_in("commands/schemas.runs"), lambda run: run.about)}
ROWS["iptaudit"] = schema_rows()


def keys(schema):
    if isinstance(schema, list):
        return set().union(*map(keys, schema))
    if not isinstance(schema, dict):
        return set()
    return set(schema.get("properties", ())).union(*map(keys, schema.values()))


def places(document, path=()):
    """The places of a document, as the keys and numbers that lead there."""
    yield path
    inner = document.items() if isinstance(document, dict) else enumerate(document) if isinstance(document, list) else ()
    for key, value in inner:
        yield from places(value, (*path, key))


def changed(document, path, change):
    """A copy of a document in which the value at a place is changed."""
    if not path:
        return change(document)
    copy = document.copy()
    copy[path[0]] = changed(copy[path[0]], path[1:], change)
    return copy


def damaged(document):
    """What a schema has to refuse: the place, and the document with a list of null or a key more there."""
    for path in places(document):
        yield path, changed(document, path, lambda value: [None])
        yield path, changed(document, path, lambda value: {**value, "a key more": None} if isinstance(value, dict) else [None])


@functools.lru_cache(maxsize=None)
def schema_of(name):
    schema = json.loads(read("docs/schemas", name + ".json"))
    jsonschema.Draft202012Validator.check_schema(schema)
    return schema


@pytest.fixture
def run(command, request):
    """Runs a row: its document, and its status."""
    def of(name, row):
        words, files, given, _ = row
        asked = request.getfixturevalue("iptaudit") if name == "iptaudit" else command(name)
        ended = asked.run(words, files, given)
        return json.loads(ended.stdout), ended.returncode
    return of


FLAT = [(name, row) for name, rows in ROWS.items() for row in rows]


@pytest.mark.parametrize("name, row", FLAT, ids=[f"{name} {' '.join(map(str, row[0]))}" for name, row in FLAT])
def test_document(name, row, run):
    (document, status), validator = run(name, row), jsonschema.Draft202012Validator(schema_of(name))
    faults = [f"{error.json_path}: {error.message}" for error in validator.iter_errors(document)]
    faults += [f"accepted with a fault at {path}" for path, wrong in damaged(document) if validator.is_valid(wrong)]
    assert (faults, status) == ([], row[3])


@pytest.mark.parametrize("name", ROWS)
def test_keys(name, run):
    """Each key that a schema names is one of some document."""
    written = {key for row in ROWS[name] for path in places(run(name, row)[0]) for key in path if isinstance(key, str)}
    assert sorted(keys(schema_of(name)) - written) == []


def test_schemas():
    """Each schema has rows of documents."""
    assert sorted(os.listdir(os.path.join(ROOT, "docs", "schemas"))) == sorted(name + ".json" for name in ROWS)
