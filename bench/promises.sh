#!/bin/sh
# Looks that each name which docs/PROMISES.md cites is there: each definition in the crate that it names, each function and
# each clause in some crate; that each word of docs/GLOSSARY.md is in its file; and that docs/CLAUSES.md, if it is there, is the
# table of the sources. Prints what is missing, and then answers 1. With --write it first writes that table anew.
# usage: bench/promises.sh [--write]
cd "$(dirname "$0")/.." || exit 2
PYTHONDONTWRITEBYTECODE=1 exec python3 bench/promises.py "$@"
