#!/usr/bin/env python3
"""How long it takes to parse a document, to check it too, and to number it as a request as well.

    (cd crates/check_benches && rt run)
    bench/checking.py --bin crates/check_benches/out/check_benches [--graphql-core]

The first document is a page of todos with its fragments. Behind it come documents of one field under many
aliases, of five fields each: where a step is linear, its microseconds of an alias are about the same down
the column. Times are the processor's, the least of three runs, so that other work on the machine matters
little. The program checks that no document is refused.

With `--graphql-core` graphql-core's `parse`, `validate` and `print_ast` take the same steps in Python. It
has to be where Python finds it.
"""

import argparse
import os

from processor_time import least_of_three, of_calls

STEPS = ("parse", "check", "identity")
ALIASES = (1_250, 2_500, 5_000, 10_000)

# The schema and the page of the program.
SCHEMA = """type Query { me: User todo(id: ID!): Todo todos: [Todo!]! }
type User { id: ID! name: String! nick: String }
type Todo { id: ID! text: String! done: Boolean! author: User }
"""
PAGE = (
    'query Page($id:ID="1",$n:Boolean!){todos{...T} todo(id:$id){id author{id nick @include(if:$n)}}} '
    "fragment T on Todo{id text done author{...U}} fragment U on User{id name}"
)


def milliseconds(program, step, document, turns):
    """The least processor time of three runs, for one turn."""
    words = [program, step, document, str(turns)]
    return least_of_three(words) / turns * 1e3


def by_graphql_core(turns):
    """The three steps of the page by graphql-core, in milliseconds."""
    import graphql

    schema = graphql.build_schema(SCHEMA)

    def checked():
        document = graphql.parse(PAGE)
        if graphql.validate(schema, document):
            raise SystemExit("graphql-core refuses the page")
        return document

    calls = (lambda: graphql.parse(PAGE), checked, lambda: graphql.print_ast(checked()))
    return graphql.__version__, [of_calls(call, turns) for call in calls]


def main():
    parser = argparse.ArgumentParser()
    parser.add_argument("--bin", required=True)
    parser.add_argument("--graphql-core", action="store_true")
    options = parser.parse_args()
    program = os.path.abspath(options.bin)
    print("%-20s %14s %14s %14s" % ("", "parse", "and check", "and identity"))
    cells = [milliseconds(program, step, "page", 20_000) for step in STEPS]
    print("%-20s %11.4f ms %11.4f ms %11.4f ms" % ("page", *cells), flush=True)
    if options.graphql_core:
        version, cells = by_graphql_core(200)
        print("%-20s %11.4f ms %11.4f ms %11.4f ms" % ("graphql-core " + version, *cells), flush=True)
    for count in ALIASES:
        cells = [milliseconds(program, step, str(count), 100_000 // count) for step in STEPS]
        each = [taken / count * 1e3 for taken in cells]
        print("%-20s %11.4f us %11.4f us %11.4f us" % ("an alias of %d" % count, *each), flush=True)


if __name__ == "__main__":
    main()
