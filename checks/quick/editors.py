#!/usr/bin/env python3
"""Compares the files of extras/ and the manual page with the sources and with the help of the program.

    checks/quick/editors.py [PROGRAM]     PROGRAM is the one that ./parbegin has built if none is given

Every reserved word of the lexer must be coloured by Vim and by VS Code, and nothing else as one; every command of
`--help`, with every option of its own help, must be in both completions and in docs/parbegin.1, and no other one; and
so must what the script adds: commands of its own, and options of `check`, `plan` and `run`. bash must complete what
follows. If vim is there, it must take a text and a recorded run for what they are, and find the place of a refusal in
what `check --format gcc` writes; if not, that is said. Its status is 0 if all is as wanted, and 1 if not.
"""
import json
import pathlib
import re
import shutil
import subprocess
import sys
import tempfile

sys.path.insert(0, str(pathlib.Path(__file__).resolve().parents[1] / "lib"))

from calls import TOP, WORDS, Tally, call, installed  # noqa: E402

LEXER = TOP / "crates/pb_lexer/src/words.rt"
VIM = TOP / "extras/vim/syntax/parbegin.vim"
GRAMMAR = TOP / "extras/vscode/syntaxes/parbegin.tmLanguage.json"
SNIPPETS = TOP / "extras/vscode/snippets/parbegin.json"
BASH = TOP / "extras/completion/parbegin.bash"
FISH = TOP / "extras/completion/parbegin.fish"
MANUAL = TOP / "docs/parbegin.1"
# What Vim colours in comments.
TASKS = {"TODO", "FIXME", "NOTE"}
# What clap gives to every command, and what may come before a command.
COMMON = {"help", "version", "unproved", "quiet", "json"}
# Options that the script takes, and commands that it has, and the program does not know.
OF_SCRIPT = {
    "bank": {"connect", "lease"}, "check": {"format", "jobs"}, "plan": {"format", "table", "csv", "jobs"}, "run": {"seed", "lend"},
}
COMMANDS_OF_SCRIPT = {
    "class": {
        "listen", "exercises", "try", "title", "names", "keep", "teacher", "cert", "key", "host", "proxied", "states", "seconds", "memory",
        "searches", "jobs", "rate",
    },
    "grade": {"any", "fair", "lend", "states", "jobs", "csv", "html"}, "page": {"seed", "lend", "from", "rows", "states"},
    "sample": {"runs", "seed", "lend", "steps", "events", "jobs"},
    "hold": {"socket", "claim", "name", "nowait", "timeout", "conflict", "lease", "verbose"},
    "serve": {
        "journal", "socket", "mode", "capital", "tcp", "cert", "key", "tokens", "http", "clients", "sessions", "snapshot",
        "operators", "etcd", "advertise", "name", "prefix", "lead", "backup", "restore", "replay",
    },
}
BEFORE = {
    BASH: ("--unproved", "--quiet", "--json"), FISH: ("-l unproved", "-l quiet", "-l json"),
    MANUAL: (r"\-\-unproved", r"\-\-quiet", r"\-\-json"),
}


def reserved_words():
    """Returns what the lexer compares whole names with."""
    return set(re.findall(r'word == b"([a-z]+)"', LEXER.read_text()))


def vim_words():
    lines = re.findall(r"^syntax keyword \w+ (.*)", VIM.read_text(), re.M)
    return {word for line in lines for word in line.split() if word != "contained"} - TASKS


def grammar_words():
    """Returns the words of the patterns that name reserved words, which are in brackets and between word boundaries."""
    patterns = json.loads(GRAMMAR.read_text())["repository"]["keyword"]["patterns"]
    found = [re.fullmatch(r"\\b\(([a-z|]+)\)\\b", it["match"]) for it in patterns]
    return {word for it in found for word in it[1].split("|")}


def help_of(*words):
    status, said = call([*words, "--help"], b"")
    assert status == WORDS, (words, status)
    return said.decode()


def commands():
    """Returns the commands of the program, each with its options."""
    listed = re.search(r"^Commands:\n((?:  .*\n)+)", help_of(), re.M)[1]
    names = re.findall(r"^  ([a-z]+)\b", listed, re.M)
    return {name: options_of(name) | OF_SCRIPT.get(name, set()) for name in names} | COMMANDS_OF_SCRIPT


def options_of(command):
    if command == "help":
        return set()
    return set(re.findall(r"--([a-z]+)", help_of(command))) - COMMON


def bash_commands():
    rows = re.findall(r'^    ([a-z]+)\) options="(.*)" ;;', BASH.read_text(), re.M)
    found = {name: set(re.findall("--([a-z]+)", options)) for name, options in rows}
    listed = re.search('commands="(.*)"', BASH.read_text())[1].split()
    return {word: found.get(word, set()) for word in listed if not word.startswith("-")}


def fish_commands():
    text = FISH.read_text()
    found = {name: set() for name in re.search("^set -l commands (.*)", text, re.M)[1].split()}
    for names, option in re.findall('"__fish_seen_subcommand_from ([a-z ]+)" -l ([a-z]+)', text):
        for name in names.split():
            found[name].add(option)
    return {name: options for name, options in found.items() if f"-a {name} " in text}


def manual_commands():
    section = MANUAL.read_text().partition("\n.SH COMMANDS\n")[2].partition("\n.SH ")[0]
    parts = re.split(r"^\.SS ", section, flags=re.M)[1:]
    return {it.split()[0]: set(re.findall(r"\\-\\-([a-z]+)", it)) for it in parts}


# What is completed after some words, and one completion of it.
COMPLETED = (
    (["outcomes", "--lend", ""], "cash"), (["help", "rep"], "replay"), (["check", "--format", ""], "sarif"),
    (["run", "a"], "a.pb"), (["--quiet", "debug", "a"], "a.pb"), (["explain", "N"], "N3"),
)
BASH_COMPLETES = """source "$1"; shift; COMP_WORDS=(parbegin "$@"); COMP_CWORD=$#; _parbegin; printf '%s\\n' "${COMPREPLY[@]}" """
WRONG_TEXT = "process p begin\n  x := 1\nend\n"
VIM_TELLS = ["-c", "call writefile([&filetype], 'told')", "-c", "qa!"]
VIM_MAKES = [
    "-c", "silent make a.pb", "-c", "let places = filter(getqflist(), 'v:val.valid')",
    "-c", "call writefile([bufname(places[0].bufnr) .. ' ' .. places[0].lnum .. ' ' .. places[0].col], 'told')", "-c", "qa!",
]
EMACS_READS = """(progn (require 'compile) (with-current-buffer (get-buffer-create "told")
  (call-process "%s" nil t nil "check" "--format" "gcc" "a.pb")
  (compilation-mode)
  (let ((place (compilation--message->loc (compilation-next-error 0 nil (point-min)))))
    (princ (format "%%s %%s %%s" (caar (compilation--loc->file-struct place))
      (compilation--loc->line place) (compilation--loc->col place))))))"""


def written(words, folder):
    """Calls a program in a folder, and returns what it wrote."""
    ran = subprocess.run(words, cwd=folder, stdin=subprocess.DEVNULL, capture_output=True, check=False)
    return ran.stdout.decode()


def try_completions(tally, folder):
    for words, wanted in COMPLETED:
        found = written(["bash", "-c", BASH_COMPLETES, "bash", str(BASH), *words], folder)
        tally.expect(wanted in found.split(), "bash completes", words, found)
        if shutil.which("fish"):
            line = " ".join(["parbegin", *words])
            found = written(["fish", "-c", f"source {FISH}; complete -C'{line}'"], folder)
            tally.expect(wanted in re.findall(r"^[^\t\n]+", found, re.M), "fish completes", words, found)


def try_vim(tally, folder, script):
    vim = ["vim", "-Nu", "NONE", "-es", "--cmd", f"set rtp^={TOP}/extras/vim", "-c", "filetype on"]
    for name in ("a.pb", "a.run"):
        written([*vim, "-c", f"edit {name}", *VIM_TELLS], folder)
        tally.expect((folder / "told").read_text() == "parbegin\n", "vim takes", name, "for another language")
    (folder / "told").unlink()
    written([*vim, "-c", f"set makeprg={script}\\ check\\ --format\\ gcc", *VIM_MAKES], folder)
    told = folder / "told"
    is_found = told.exists() and told.read_text() == "a.pb 2 3\n"
    tally.expect(is_found, "vim does not find the place of a refusal")


def try_snippets(tally):
    """Checks the text of each snippet of VS Code, with the words that it proposes."""
    whole = {"process": "%s\n", "resource": "%s\nprocess p begin skip end\n"}
    for name, snippet in json.loads(SNIPPETS.read_text()).items():
        proposed = re.sub(r"\$\{\d:([^}]*)\}", r"\1", "\n".join(snippet["body"]))
        text = whole.get(name, "resource name = 1;\nprocess p\nbegin\ninteger x;\n%s\nend\n") % proposed
        status, said = call(["check"], text.encode())
        tally.expect(status == 0, "the snippet", name, said)


def try_editors(tally):
    """Tries completion, and the editors that are there."""
    with tempfile.TemporaryDirectory() as name:
        folder = pathlib.Path(name)
        script = installed(folder / "installed")
        (folder / "a.pb").write_text(WRONG_TEXT)
        (folder / "a.run").write_text(WRONG_TEXT)
        try_completions(tally, folder)
        if shutil.which("vim"):
            try_vim(tally, folder, script)
        if shutil.which("emacs"):
            told = written(["emacs", "--batch", "-Q", "--eval", EMACS_READS % script], folder)
            tally.expect(told == "a.pb 2 3", "emacs does not find the place of a refusal", told)
        missing = [it for it in ("fish", "vim", "emacs") if not shutil.which(it)]
        if missing:
            print(f"not tried, since not installed: {', '.join(missing)}")


def main():
    tally, words, wanted = Tally(), reserved_words(), commands()
    for name, found in (("Vim", vim_words()), ("VS Code", grammar_words())):
        for word in sorted(words | found):
            tally.expect(word in words and word in found, f"{name}: the word {word}")
    rows = (("bash", bash_commands()), ("fish", fish_commands()), ("the manual", manual_commands()))
    for name, found in rows:
        tally.expect(set(found) == set(wanted), f"{name}: the commands", set(found) ^ set(wanted))
        for command in set(found) & set(wanted):
            differ = found[command] ^ wanted[command]
            tally.expect(not differ, f"{name}: the options of {command}", differ)
    for file, options in BEFORE.items():
        for option in options:
            tally.expect(option in file.read_text(), f"{file.name}: {option}")
    try_snippets(tally)
    try_editors(tally)
    print(f"{len(words)} reserved words, {len(wanted)} commands")
    tally.end("editors")


main()
