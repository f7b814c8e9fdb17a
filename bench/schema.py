#!/usr/bin/env python3
"""How long reading a schema takes, over the built program: one of 5,000 types and one of 50,000.

    bench/schema.py --bin PATH [--graphql DIR] [--graphql-core] [--types COUNT]..

Every fifth type is an interface, an enum, an input object, a union or an object type that implements an
interface; fields have arguments with defaults, and each input object needs the one before it. The run's
input is empty, so that it only reads the schema; the time of a run over a schema of one type is taken
away. Times are the processor's, the least of three runs.

Where DIR, the folder of graphql-js 16, is given, its `buildSchema` reads the same text under node. With
`--graphql-core` graphql-core's `build_schema` reads it in Python, and then `validate_schema` judges it
too; it has to be where Python finds it. `--types` gives other counts than the two.
"""

import argparse
import os
import subprocess

from gate_run import seconds
from processor_time import of_calls


def schema(types):
    parts = ["type Query { first: Object0 }"]
    for number in range(types // 5):
        before = max(number - 1, 0)
        parts.append('"A thing with an id." interface Thing%d { id: ID! name(size: Int = 10): String }' % number)
        parts.append("enum Kind%d { SMALL LARGE }" % number)
        need = " before: Filter%d!" % before if number else ""
        parts.append("input Filter%d { text: String = \"a\" kind: Kind%d = SMALL%s }" % (number, number, need))
        parts.append(
            "type Object%d implements Thing%d { id: ID! name(size: Int = 10): String kind: Kind%d "
            "next(limit: Int! = 5, kinds: [Kind%d!] = [SMALL]): Object%d @deprecated }" % (number, number, number, number, before))
        parts.append("union Any%d = Object%d | Query" % (number, number))
    return "\n".join(parts)


SCRIPT = """
const {buildSchema} = require(process.argv[1]);
const text = require('fs').readFileSync(0, 'utf8');
buildSchema(text);
const start = process.hrtime.bigint();
buildSchema(text);
console.log(Number(process.hrtime.bigint() - start) / 1e6);
"""


def by_graphql_core(text):
    """How long graphql-core takes to build a schema, and to judge it too, as the end of a row."""
    import graphql

    def judged():
        faults = graphql.validate_schema(graphql.build_schema(text))
        if faults:
            raise SystemExit("graphql-core refuses the schema: %s" % faults[0].message)

    cells = of_calls(lambda: graphql.build_schema(text), 1), of_calls(judged, 1)
    return "; graphql-core %s builds it in %.1f ms, and judges it too in %.1f ms" % (graphql.__version__, *cells)


def main():
    parser = argparse.ArgumentParser()
    parser.add_argument("--bin", required=True)
    parser.add_argument("--graphql")
    parser.add_argument("--graphql-core", action="store_true")
    parser.add_argument("--types", type=int, action="append")
    options = parser.parse_args()
    program = os.path.abspath(options.bin)
    empty, _ = seconds(program, b"type Query { a: Int }")
    for types in options.types or (5000, 50000):
        text = schema(types)
        taken, _ = seconds(program, text.encode())
        row = "%d types, %d bytes: %.1f ms" % (types, len(text), (taken - empty) * 1000)
        if options.graphql:
            done = subprocess.run(
                ["node", "-e", SCRIPT, os.path.abspath(options.graphql)],
                input=text.encode(), stdout=subprocess.PIPE, check=True)
            row += "; graphql-js builds it in %.1f ms" % float(done.stdout)
        if options.graphql_core:
            row += by_graphql_core(text)
        print(row, flush=True)


if __name__ == "__main__":
    main()
