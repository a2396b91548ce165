#!/bin/sh
# Becomes the tool that has the command of these words, as it is built in a checkout or installed. tools.py has the same
# table. Of words without a command each tool says the same, so the first one that is there is taken.
self=$0
[ ! -L "$self" ] || self=$(readlink -f -- "$self")
here=${self%/*}/..
path_of() {
    if [ -e "$here/crates.txt" ]; then tool=$here/crates/parbegin_$1/out/parbegin_$1; else tool=$here/parbegin-$1; fi
}
for command in "$@"; do
    case $command in --quiet | --json) ;; *) break ;; esac
done
case ${command-} in
    bank) path_of bank ;;
    check | claims | emit | exec | explain | migrate | record | replay | run) path_of run ;;
    outcomes | plan | states) path_of search ;;
    dap | debug | draw) path_of debug ;;
    findings | lsp) path_of edit ;;
    *)
        for name in bank run search debug edit; do
            path_of $name
            [ ! -e "$tool" ] || break
        done
        ;;
esac
exec "$tool" "$@"
