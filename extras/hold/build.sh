#!/bin/sh
# Builds parbegin-hold, the C form of `parbegin hold`: extras/hold/build.sh [FILE]. It needs a C compiler and nothing else.
set -eu
here=$(CDPATH= cd -- "$(dirname -- "$0")" && pwd)
exec "${CC:-cc}" -std=c11 -D_GNU_SOURCE -O2 -Wall -Wextra -Wpedantic -Wshadow -Wconversion -Wno-format-truncation -Werror \
    -o "${1:-parbegin-hold}" "$here"/hold.c "$here"/words.c "$here"/client.c
