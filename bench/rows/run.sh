#!/bin/sh
# Times the row kernels beside a plain loop and pixman. Wants Debian's libpixman-1-dev and a C
# compiler. Arguments: rounds, and pixels of each timing.
set -eu
here=$(cd "$(dirname "$0")" && pwd)
library="$here/../../crates/bench_rows"
(cd "$library" && rt lib >/dev/null)
program=$(mktemp)
trap 'rm -f "$program"' EXIT
cc -O2 -o "$program" "$here/bench.c" "$library/out/libbench_rows.a" $(pkg-config --cflags --libs pixman-1)
"$program" "$@"
