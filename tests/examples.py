"""The worked examples of docs/, runs written out, tables of malformed lines and frames, damaged images, the reader of
images itself, and each way in which a run ends: all over real files, with what is expected written out."""

from __future__ import annotations

from typing import Iterator

import cut_images
import damaged_images
import damages_together
import endings
import journal_records
import malformed_frames
import malformed_lines
import reader_bits
import worked_examples
import written_runs
from parts import Context, Result
from program import Program

NAME = "examples"
TABLES = (
    worked_examples, written_runs, malformed_lines, malformed_frames, reader_bits, damaged_images, cut_images,
    damages_together, journal_records, endings,
)


def run(context: Context) -> Iterator[Result]:
    """The results of each table."""
    program = Program(context.program)
    for table in TABLES:
        yield from table.results(context, program)
