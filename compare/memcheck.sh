#!/usr/bin/env bash
# Runs the C calls under valgrind's memcheck over a hundred generated logs, damaged ones among them, with buffers of many lengths, and with
# null for a log or a report of no bytes; slips too. It needs the static libraries and valgrind.
set -euo pipefail
cd "$(dirname "$0")"
folder=target/memcheck
cargo run --offline --release --quiet --bin logs "$folder" "${1:-100}"
libraries=(../target/staticlib/libskovarnek.a ../target/staticlib/libskovarnek_slip.a)
cc -g -O1 -Wall -Wextra -Werror -I../include memcheck.c "${libraries[@]}" -o "$folder/memcheck"
valgrind --quiet --error-exitcode=1 --main-stacksize=8388608 "$folder/memcheck" "$folder"/*.log
echo "memcheck: clean over $(ls "$folder"/*.log | wc -l) logs"
