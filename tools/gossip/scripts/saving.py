"""Writes what a script measured to files too: rows with named columns, as JSON or as CSV."""
import argparse
import csv
import io
import json
import pathlib
from collections.abc import Iterable, Sequence

from gossip.scripts.console import Failure, Refusal


# a row of what was measured, by the names of its columns
Row = dict[str, str | float | None]


def take_files(parser: argparse.ArgumentParser) -> None:
    """Adds the options that name the files for a script's numbers."""
    parser.add_argument("--json", type=pathlib.Path, metavar="FILE", help="also write the numbers to this file, as JSON: a list of objects")
    parser.add_argument("--csv", type=pathlib.Path, metavar="FILE", help="also write the numbers to this file, as CSV with a header line")


def refuse_files(words: argparse.Namespace) -> None:
    """Raises a `Refusal` if a named file is a folder or isn't in an existing one, before anything is measured."""
    for path in filter(None, (words.json, words.csv)):
        if path.is_dir() or not path.absolute().parent.is_dir():
            raise Refusal(f"{path} can't be written: name a file in a folder that is there")


def json_of(rows: Iterable[Row]) -> str:
    """Returns rows as JSON, each on a line of its own."""
    lines = ",\n".join(map(json.dumps, rows))
    return f"[\n{lines}\n]\n"


def csv_of(rows: Sequence[Row]) -> str:
    """Returns rows as CSV, with a column for each name that a row has."""
    text, names = io.StringIO(), dict.fromkeys(name for row in rows for name in row)
    writer = csv.DictWriter(text, list(names), lineterminator="\n")
    writer.writeheader()
    writer.writerows(rows)
    return text.getvalue()


def write_files(words: argparse.Namespace, rows: Sequence[Row]) -> None:
    """Writes rows to the files that are named."""
    for path, spelled in ((words.json, json_of), (words.csv, csv_of)):
        if path:
            try:
                path.write_text(spelled(rows), "utf-8")
            except OSError as error:
                raise Failure(f"{path} can't be written: {error.strerror}") from None
