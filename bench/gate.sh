#!/bin/sh
# Runs the gate, or the gate's work on some crates, and tells what it took: processor minutes, proofs, tests and edits apart,
# and the dearest parts and functions. bench/gate.py says how.
exec python3 "$(dirname "$0")/gate.py" "$@"
