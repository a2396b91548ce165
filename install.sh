#!/bin/sh
# Puts the tools and their script under a prefix, so that `parbegin` is on the path.
#
#     ./install.sh [PREFIX]             PREFIX is /usr/local if none is given
#     ./install.sh PREFIX library       the library for C too, built first: libparbegin.a and libparbegin.so, parbegin.h,
#                                       parbegin.pc, and the Python package
#
# All tools are built first if they have to be. PREFIX/bin/parbegin is the script, PREFIX/bin/parbegin-hold is `hold` in C, if
# there is a C compiler; PREFIX/libexec/parbegin/parbegin-TOOL each tool, PREFIX/libexec/parbegin/script what the script does,
# PREFIX/share/parbegin/page the template of `page`, PREFIX/share/parbegin/class and PREFIX/share/parbegin/exercises what `class`
# serves; the manual page and the completions for bash and fish go to PREFIX/share. The script needs python3.
set -eu
top=$(CDPATH= cd -- "$(dirname -- "$0")" && pwd)
prefix=${1:-/usr/local}
case ${2-} in
    "" | library) ;;
    *) echo "usage: ./install.sh [PREFIX [library]]" >&2; exit 2 ;;
esac

"$top/parbegin" build

# put MODE FILE FOLDER NAME
put() {
    mkdir -p "$3"
    install -m "$1" "$2" "$3/$4"
    echo "$3/$4"
}

for tool in bank run search debug edit; do
    put 755 "$top/crates/parbegin_$tool/out/parbegin_$tool" "$prefix/libexec/parbegin" "parbegin-$tool"
done
put 755 "$top/parbegin" "$prefix/bin" parbegin
if command -v cc >/dev/null; then
    hold=$(mktemp)
    "$top/extras/hold/build.sh" "$hold"
    put 755 "$hold" "$prefix/bin" parbegin-hold
    rm -f "$hold"
fi
for module in "$top"/script/*.py; do
    put 644 "$module" "$prefix/libexec/parbegin/script" "${module##*/}"
done
for module in "$top"/script/teaching/*.py; do
    put 644 "$module" "$prefix/libexec/parbegin/script/teaching" "${module##*/}"
done
for file in "$top"/script/serving/*.py "$top"/script/serving/page.html; do
    put 644 "$file" "$prefix/libexec/parbegin/script/serving" "${file##*/}"
done
put 755 "$top/script/tools.sh" "$prefix/libexec/parbegin/script" tools.sh
for file in "$top"/extras/page/*.js "$top"/extras/page/page.css "$top"/extras/page/page.html "$top"/extras/page/make_page.py; do
    put 644 "$file" "$prefix/share/parbegin/page" "${file##*/}"
done
for file in "$top"/extras/class/*; do
    put 644 "$file" "$prefix/share/parbegin/class" "${file##*/}"
done
for file in "$top"/examples/exercises/*.md; do
    put 644 "$file" "$prefix/share/parbegin/exercises" "${file##*/}"
done
put 644 "$top/docs/parbegin.1" "$prefix/share/man/man1" parbegin.1
put 644 "$top/extras/completion/parbegin.bash" "$prefix/share/bash-completion/completions" parbegin
put 644 "$top/extras/completion/parbegin.fish" "$prefix/share/fish/vendor_completions.d" parbegin.fish

[ "${2-}" = library ] || exit 0
built=$(mktemp -d)
trap 'rm -rf "$built"' EXIT
"$top/parbegin" library "$built" >/dev/null
put 644 "$built/libparbegin.a" "$prefix/lib" libparbegin.a
put 755 "$built/libparbegin.so" "$prefix/lib" libparbegin.so.0
ln -sf libparbegin.so.0 "$prefix/lib/libparbegin.so"
echo "$prefix/lib/libparbegin.so"
put 644 "$top/extras/library/parbegin.pc" "$prefix/lib/pkgconfig" parbegin.pc
put 644 "$built/parbegin.h" "$prefix/include" parbegin.h
for module in "$top"/extras/python/parbegin/*.py; do
    put 644 "$module" "$prefix/share/parbegin/python/parbegin" "${module##*/}"
done
