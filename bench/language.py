#!/usr/bin/env python3
"""How long reading and judging documents takes, over the built program: one of 100 KB and one of 1 MB.

    bench/language.py --bin PATH [--graphql DIR] [--graphql-core]

A document of 2,000 and one of 20,000 fields are each dispatched several times, in three ways. Behind 65
brackets the text is refused before it is parsed (E14). With the name of an operation that it doesn't
have it is refused once it is parsed (E7), so the difference to the first is the parser's. As it is the
document is judged too: by all rules, until it is refused for having aliases (E3).
Times are the processor's, the least of three runs.

Where DIR, the folder of graphql-js, is given, its `parse` reads the same texts under node. With
`--graphql-core` graphql-core's `parse` reads them in Python; it has to be where Python finds it.
"""

import argparse
import json
import os
import subprocess

import gate_run
from processor_time import of_calls


def document(fields):
    parts = ["{"]
    for number in range(fields // 5):
        parts.append(
            'f%d: todo(id: "%d", text: "%s") { id, text, author { name } }' % (number, number, "a" * 190))
    parts.append("}")
    return "\n".join(parts)


SCHEMA = b"""type Query { todo(id: ID!, text: String): Todo }
type Todo { id: ID! text: String! author: User }
type User { name: String! }
"""


def dispatches(text, times, **members):
    line = json.dumps({"do": "dispatch", "id": 1, "query": text, **members})
    return ((line + "\n") * times).encode()


def seconds(program, data, wanted):
    """The least time of three runs, whose first answer has to be one of those that are wanted."""
    taken, first = gate_run.seconds(program, SCHEMA, data)
    if not any(code in first for code in wanted):
        raise SystemExit("not the wanted answer: %r" % first[:200])
    return taken


SCRIPT = """
const {parse} = require(process.argv[1]);
const text = require('fs').readFileSync(0, 'utf8');
const times = Number(process.argv[2]);
for (let i = 0; i < times; i++) parse(text, {noLocation: false});
const start = process.hrtime.bigint();
for (let i = 0; i < times; i++) parse(text, {noLocation: false});
console.log(Number(process.hrtime.bigint() - start) / 1e6 / times);
"""


def by_graphql_core(text, times):
    """How long graphql-core takes to parse a text, as the end of a row."""
    import graphql

    taken = of_calls(lambda: graphql.parse(text), times)
    return "; graphql-core %s parses it in %.2f ms" % (graphql.__version__, taken)


def main():
    parser = argparse.ArgumentParser()
    parser.add_argument("--bin", required=True)
    parser.add_argument("--graphql")
    parser.add_argument("--graphql-core", action="store_true")
    options = parser.parse_args()
    program = os.path.abspath(options.bin)
    for fields, times in ((2000, 100), (20000, 10)):
        text = document(fields)
        judged = seconds(program, dispatches(text, times), (b'"E3","member":"query"',))
        parsed = seconds(program, dispatches(text, times, operationName="none"), (b'"E7"',))
        lexed = seconds(program, dispatches("{" * 65 + text, times), (b'"E14"',))
        row = "%d fields, %d bytes: %.2f ms a parsed document, of which the parser %.2f ms; judged too %.2f ms" % (
            fields, len(text), parsed / times * 1000, (parsed - lexed) / times * 1000, judged / times * 1000)
        if options.graphql:
            done = subprocess.run(
                ["node", "-e", SCRIPT, os.path.abspath(options.graphql), str(times)],
                input=text.encode(), stdout=subprocess.PIPE, check=True)
            row += "; graphql-js parses it in %.2f ms" % float(done.stdout)
        if options.graphql_core:
            row += by_graphql_core(text, max(times // 10, 1))
        print(row, flush=True)


if __name__ == "__main__":
    main()
