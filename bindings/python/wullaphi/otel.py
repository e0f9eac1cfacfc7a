"""Answers from the traces that a system already has: spans of OpenTelemetry or Jaeger as a log for `wcptrace`.

    python -m wullaphi.otel lines --output lease.log traces.json
    wcptrace --form lines --from .. --until .. lease.log

`docs/traces.md` says what such a log orders. A `SpanFile` writes the spans of a program that is traced by
OpenTelemetry's SDK for Python: to a file which `lines` reads, or by `to_collector` to a `collect`.
"""

import sys

from ._span_file import SpanFile, to_collector
from ._trace_command import main

__all__ = ["SpanFile", "main", "to_collector"]

# Where a name is shown, it is that of this module.
SpanFile.__module__ = to_collector.__module__ = __name__

if __name__ == "__main__":
    sys.exit(main())
