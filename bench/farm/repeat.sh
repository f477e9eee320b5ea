#!/usr/bin/env bash
# Fills the tables of examples/club.pbn again and again with four solvers and four checkers: each run has to print the same bytes.
# Usage: bench/farm/repeat.sh [RUNS], by default 200. It needs the program built (run ./ddfarm once).
set -euo pipefail
cd "$(dirname "${BASH_SOURCE[0]}")/../.."

readonly RUNS="${1:-200}"
for ((run = 1; run <= RUNS; run++)); do
    crates/ddfarm/out/ddfarm table --solvers 4 --checkers 4 <examples/club.pbn | cmp - examples/club-tables.pbn
done
echo "$RUNS runs, each with the same bytes"
