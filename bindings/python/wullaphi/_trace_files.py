"""Files of spans: OTLP/JSON, one request a line or one document, and Jaeger's JSON."""

import json
import sys
from typing import IO, Any, Iterator, Optional, Tuple

from . import _trace_jaeger, _trace_otlp
from ._trace_json import Wrong
from ._trace_spans import Fault, Naming, Span, Spans

FORMS = {"otlp": _trace_otlp.spans_of, "jaeger": _trace_jaeger.spans_of}


def read(path: str, form: Optional[str], naming: Naming, spans: Spans) -> None:
    """Takes the spans of a file; `-` is standard input."""
    try:
        if path == "-":
            _take(sys.stdin.buffer, "standard input", form, naming, spans)
        else:
            with open(path, "rb") as file:
                _take(file, path, form, naming, spans)
    except OSError as error:
        raise Fault(f"{path}: {error.strerror}") from None


def _take(file: IO[bytes], path: str, form: Optional[str], naming: Naming, spans: Spans) -> None:
    for place, document in documents(file, path):
        try:
            for span in spans_of(document, form, naming):
                spans.check((span,))
                spans.add(span)
        except Wrong as wrong:
            raise Fault(f"{place}: {wrong}") from None


def spans_of(document: Any, form: Optional[str], naming: Naming) -> Iterator[Span]:
    """The spans of a document. Where no form is given, its members tell it."""
    if not isinstance(document, dict):
        raise Wrong("this is no JSON object")
    if form is None:
        form = "otlp" if "resourceSpans" in document else "jaeger"
        if form == "jaeger" and "data" not in document:
            raise Wrong("there is neither resourceSpans, as in OTLP, nor data, as in Jaeger's JSON")
    try:
        yield from FORMS[form](document, naming)
    except RecursionError:
        raise Wrong("an attribute is nested too deep") from None


def documents(file: IO[bytes], path: str) -> Iterator[Tuple[str, Any]]:
    """Each JSON value of a file and its place: one a line, or one in all the lines."""
    first = file.readline()
    number = 1
    while first and not first.strip():
        first, number = file.readline(), number + 1
    if not first:
        return
    try:
        document = parsed(first)
    except (ValueError, RecursionError):
        rest = file.read()
        if not rest.strip():
            yield f"{path} line {number}", checked(first, path, number)
        else:
            yield path, checked(first + rest, path, number)
        return
    yield f"{path} line {number}", document
    for line in file:
        number += 1
        if line.strip():
            yield f"{path} line {number}", checked(line, path, number)


def parsed(data: bytes) -> Any:
    """JSON in UTF-8."""
    return json.loads(data.decode("utf-8-sig"))


def checked(data: bytes, path: str, number: int) -> Any:
    """JSON that begins at this line of a file."""
    try:
        return parsed(data)
    except json.JSONDecodeError as error:
        raise Fault(f"{path} line {number + error.lineno - 1}: no JSON at column {error.colno}: {error.msg}") from None
    except UnicodeDecodeError:
        raise Fault(f"{path} line {number}: no UTF-8") from None
    except RecursionError:
        raise Fault(f"{path} line {number}: nested too deep") from None
