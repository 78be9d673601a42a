#!/bin/sh
# Compares a program with the oracle on lines with annotations, after ./build.sh: ./annotated.sh PROGRAM ARG..
#   ./annotated.sh ../crates/cell/out/cell
#   ./annotated.sh python3 model.py             the model of crates/cases, half an hour
# All small lines, then 780,000 random ones of the seven commands, 520,000 of which have annotations.
set -eu
cd "$(dirname "$0")"
seven=shift,free,bind,fill,prune,point,member
each() {
    echo "gen.py $1"
    python3 gen.py $1 | python3 compare.py -- $program
}
program=$*
each '--exhaustive-annotations'
each "--annotations 50 --seed 21 --count 250000 --commands $seven"
each "--annotations 90 --seed 22 --count 250000 --fuel 9 --commands $seven"
each "--annotations 100 --seed 24 --count 250000 --fuel 20 --commands $seven"
each "--annotations 40 --seed 23 --count 30000 --fuel 60 --commands $seven"
