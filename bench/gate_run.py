"""Runs of gqlgate over a schema, no rules and a queue file of their own."""

import os
import tempfile

from processor_time import least_of_three


def seconds(program, schema, given=b""):
    """The least processor time of three runs over this input, and the first line of their output."""
    with tempfile.TemporaryDirectory() as place:
        names = [os.path.join(place, name) for name in ("schema", "rules", "input", "output", "queue")]
        for name, text in zip(names, (schema, b"", given)):
            with open(name, "wb") as file:
                file.write(text)
        words = [program, "run", "--schema", names[0], "--rules", names[1], "--queue", names[4]]
        least = least_of_three(words, given=names[2], told=names[3])
        with open(names[3], "rb") as file:
            return least, file.readline()
