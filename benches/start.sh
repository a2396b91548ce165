#!/bin/sh
# Times a call of the program on a tiny text, from its start to its end, beside /bin/true, in microseconds a call.
set -eu
top=$(CDPATH= cd -- "$(dirname -- "$0")/.." && pwd)
program=$top/script/tools.sh
text=$top/examples/hello.pb
calls=500

nanoseconds_of() {
    start=$(date +%s%N)
    for _ in $(seq "$calls"); do "$@" <"$text" >/dev/null; done
    end=$(date +%s%N)
    echo $((end - start))
}

"$top/parbegin" run <"$text" >/dev/null
for turn in 1 2 3; do
    echo "turn $turn: parbegin $(($(nanoseconds_of "$program" run) / calls / 1000)), true $(($(nanoseconds_of /bin/true) / calls / 1000))"
done
