#!/bin/sh
# How the cost of calls grows with their size, by the program of crates/benches:
#
#     (cd crates/benches && rt run)
#     bench/growth.sh crates/benches/out/benches
#
# Each line is a bench, its size, and the time of one turn.
set -e
program=$1
for cells in 1000 10000 100000 1000000; do "$program" base $cells 1000000; done
for layers in 1 10 100 1000; do "$program" layers $layers 100000; done
for cells in 1000 10000 100000 1000000; do "$program" squash $cells 10000; done
for writes in 10 100 1000 10000; do "$program" squashed $writes 50; done
for cells in 1000 10000 100000 1000000; do "$program" dropped $cells 10000; done
for cells in 1000 10000 100000 1000000; do "$program" dropped-name $cells 10000; done
for queries in 4 64 1024 4096; do "$program" woken $queries 100000; done
for bytes in 1000 10000 100000 8000100; do "$program" body $bytes 5; done
for bytes in 1 10 100 100000; do "$program" head $bytes 20; done
