"""Holds what is said about the command in several places against the command itself: every command and every option that its help
names stands in the man page and in the completions, and nothing else does; every refusal is told in the same words by the command, the
Python module and the man page. Prints a line `ok ..` or `not ok ..` for each thing.

    words.py COMMAND MAN-PAGE BASH-COMPLETION ZSH-COMPLETION

The folders of the Python module and of its tests stand in PYTHONPATH.
"""

import json
import pathlib
import re
import subprocess
import sys
import tempfile

import kerbcanopy
import test_kerbcanopy as cases

COMMAND, MAN, BASH, ZSH = sys.argv[1:]
COMMON = {"--hex", "--json", "-h", "--help", "-V", "--version", "--"}


def said(*words, status=0):
    """What a program prints, which ends with this status."""
    run = subprocess.run(words, capture_output=True, text=True)
    if run.returncode != status:
        raise SystemExit(f"{words}: status {run.returncode}: {run.stderr}")
    return run.stdout


def agree(what, seen, expected):
    if seen == expected:
        print(f"ok {what}")
    else:
        print(f"not ok {what}\n  seen:     {seen}\n  expected: {expected}")


def usages():
    """Each command of the help with its usage, less the options that every command takes."""
    names = re.findall(r"^  ([a-z]+(?: [a-z]+)?) {2,}[a-z]", said(COMMAND, "--help"), re.M)
    lines = {name: said(COMMAND, *name.split(), "--help").splitlines()[0] for name in names}
    return {name: re.fullmatch(r"usage: kerbcanopy (.*) \[--hex\] \[--json\]", line)[1] for name, line in lines.items()}


#: An option in a usage, with the word for its value if it takes one: in brackets where it can be left out.
OPTION = r"\[(-[^\]]+)\]|(--[a-z]+ [A-Z]+)"


def options(usage):
    """The options of a usage, each with the word for its value if it takes one."""
    return {left_out or needed for left_out, needed in re.findall(OPTION, usage)}


def files(usage):
    """The places of the files among the words of a usage; a path or an identifier is none."""
    words = re.findall(r"\b[A-Z]+\b(?!\.\.)", re.sub(OPTION, "", usage))
    return {place for place, word in enumerate(words) if word not in ("PATH", "ID")}


def next_words(all_usages, *before):
    """The words that can follow these at the start of a use."""
    names = [tuple(name.split()) for name in all_usages]
    return {name[len(before)] for name in names if name[:len(before)] == before}


def section(page, name):
    return re.search(rf"^{name}\n(.*?)(?=^\S|\Z)", page, re.M | re.S)[1]


def man_page(all_usages):
    page = said("groff", "-man", "-Tascii", "-P-cbou", "-rLL=160n", MAN)
    agree("man page: the commands", sorted(re.findall(r"^ {7}(\S.*)$", section(page, "COMMANDS"), re.M)), sorted(all_usages.values()))
    heads = re.findall(r"^ {7}(-.*?)(?: {2,}.*| [A-Z][a-z].*)?$", section(page, "OPTIONS"), re.M)
    common = re.findall(r"^  (-.*?)  ", said(COMMAND, "--help"), re.M)
    agree("help: the options of every command", {one for words in common for one in words.split(", ")}, COMMON)
    agree("man page: the options", sorted(heads), sorted({*common, *(one for usage in all_usages.values() for one in options(usage))}))
    refusals = " ".join(section(page, "REFUSALS").split())
    found = re.findall(r"(?<=\. )(\d+) ([A-Z].*?)(?=[.;] |\.$)", refusals)
    told = {int(number): words[0].lower() + words[1:] for number, words in found}
    expected = {number: words[0].lower() + words[1:].split(";")[0] for number, words in kerbcanopy.MEANINGS.items()}
    agree("man page: the refusals", told, expected)


BASH_TRY = 'source "$1"; shift; COMP_WORDS=("$@"); COMP_CWORD=$(($# - 1)); _kerbcanopy; printf "%s\\n" "${COMPREPLY[@]}"'
ZSH_TRY = (
    'compadd() { shift; print -rl -- "$@" }; _files() { print -rl -- * }; from=$1; shift; words=("$@"); CURRENT=$#; '
    "try() { source $from }; try; true"
)


def completed(shell, *words):
    """What a shell offers for the last word."""
    start = ("bash", "-c", BASH_TRY, "bash", BASH) if shell == "bash" else ("zsh", "-fc", ZSH_TRY, "zsh", ZSH)
    return set(said(*start, "kerbcanopy", *words).split())


def completion(shell, all_usages):
    here = {path.name for path in pathlib.Path(".").iterdir() if not path.name.startswith(".")}

    def listed(*words):
        return {name for name in completed(shell, *words) if not name.startswith(".")}

    agree(f"{shell}: the commands", completed(shell, ""), next_words(all_usages))
    for group in {name.split()[0] for name in all_usages if " " in name}:
        agree(f"{shell}: the commands of {group}", completed(shell, group, ""), next_words(all_usages, group))
    for name, usage in all_usages.items():
        expected = {option.split()[0] for option in options(usage)} | COMMON
        agree(f"{shell}: the options of {name}", completed(shell, *name.split(), "-"), expected)
        offered = [listed(*name.split(), *["x"] * count, "") for count in range(7)]
        agree(f"{shell}: the files of {name}", offered, [here if count in files(usage) else set() for count in range(7)])
    agree(f"{shell}: a file behind -o", listed("normal", "x", "-o", ""), here)
    agree(f"{shell}: a number behind --room", completed(shell, "normal", "--room", ""), set())
    agree(f"{shell}: a number behind --capacity", completed(shell, "book", "new", "--capacity", ""), set())
    agree(f"{shell}: a file behind --", listed("check", "--", ""), here)
    agree(f"{shell}: options first", completed(shell, "-o", "x", "--hex", "read", "-"), {"-o", "--room"} | COMMON)


def refused():
    """For each number: a use of the command that is refused with it."""
    rig, data = cases.RIG, cases.DATA
    uses = {number: ("check", descriptor) for number, (descriptor, _) in cases.DESCRIPTORS.items()}
    uses.update({number: ("data", descriptor, sent) for number, (descriptor, sent, _) in cases.DATAS.items()})
    uses.update({number: ("read", *lent) for number, (*lent, _, _) in cases.RECORDS.items()})
    uses.update({30: ("view", rig, data, "7"), 31: ("value", rig, data), 50: ("normal", rig, "--room=0")})
    # An array of time stamps: the latest there is, and one a day before 1904.
    stamps = bytes.fromhex("00260040 0001FFFFFFFF 001C0054 0006 00160050 0004 00040003 00040003 00040007 00040007")
    far = bytes.fromhex("00000002 7FFFFFFFFFFFFFFF 0000000000000000 FFFFFFFFFFFEAE80 0000000000000000")
    uses[32] = ("difference", stamps, far, "0", "1")
    asked = {kerbcanopy.store_add: "book add", kerbcanopy.store_check: "book check", kerbcanopy.store_find: "book find"}
    for number, (call, lent, _) in cases.BOOKS.items():
        uses[number] = (asked[call], *(str(one) if isinstance(one, int) else bytes(one) for one in lent))
    return uses


def meanings():
    seen = {}
    with tempfile.TemporaryDirectory() as folder:
        for number, (command, *lent) in refused().items():
            words = []
            for index, one in enumerate(lent):
                if isinstance(one, bytes):
                    path = pathlib.Path(folder) / str(index)
                    path.write_bytes(one)
                    one = str(path)
                words.append(one)
            answer = json.loads(said(COMMAND, *command.split(), *words, "--json", status=1))
            seen[answer["number"]] = answer["meaning"]
    agree("the command and the Python module: the refusals", seen, kerbcanopy.MEANINGS)


USAGES = usages()
man_page(USAGES)
for SHELL in ("bash", "zsh"):
    completion(SHELL, USAGES)
meanings()
