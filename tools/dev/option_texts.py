"""Writes what the option list of tools/words.py says into help texts, man pages and completions.

    tools/run option_texts [--check]

In a help text these are the lines that begin with an option, in a man page the section OPTIONS up to the options that all scripts answer; the files of
tools/completions are written whole. With --check nothing is written; the exit status is 1 if a file says something else.
"""

import re
import sys
import textwrap
from collections.abc import Iterator
from pathlib import Path

from apei import TOP
from words import FILES, FOLDERS, GRAMMARS, Grammar, Option, listed

HELP_WIDTH, MAN_WIDTH = 132, 150
HELP_BLOCK = re.compile(r"(?:^  --.*\n(?:^ {10,}.*\n)*)+", re.MULTILINE)
MAN_BLOCK = re.compile(r"(?<=^\.SH OPTIONS\n)(?:.*\n)*?(?=^\.TP\n\.BR \\-\\-help )", re.MULTILINE)

COMPLETION = """\
# Completion of `PROGRAM` in bash: its options that aren't given yet, and their values. Source this file, or put it as `PROGRAM` where bash-completion
# looks, as in ~/.local/share/bash-completion/completions. tools/run option_texts writes it.

# The options, by the job where the program has jobs; of any job while none is given.
NAME_options() {
  case $1 in
OPTIONS  esac
}

# The values of an option that begin with some text.
NAME_values() {
  local values=() value
  case $1 in
VALUES  esac
  for value in "${values[@]}"; do [[ $value != "$2"* ]] || COMPREPLY+=("$value"); done
}

# Files (-f) or folders (-d) whose names begin with some text.
NAME_paths() {
  compopt -o filenames 2>/dev/null
  mapfile -t COMPREPLY < <(compgen "$1" -- "$2")
}

NAME() {
  COMPREPLY=()
  # Bash cuts a word at its `=`, so `--slots=3` may come in three.
  local words=() word at
  for ((at = 1; at <= COMP_CWORD; at++)); do
    word=${COMP_WORDS[at]}
    if [[ ${#words[@]} -gt 0 && ( $word == = || ${words[-1]} == --*= ) ]]; then words[-1]+=$word; else words+=("$word"); fi
  done
  local current=${words[-1]} option='' job='' given=' ' ended='' file=''
  unset 'words[-1]'
  for word in "${words[@]}"; do
    if [[ $word == [\\<\\>]* ]]; then file=yes
    elif [[ -n $file ]]; then file=''
    elif [[ -n $option ]]; then option=''
    elif [[ -n $ended || $word != -* ]]; then PLAIN
    elif [[ $word == -- ]]; then ended=yes
    elif [[ $word == *=* || ' FLAGS ' == *" $word "* ]]; then given+="${word%%=*} "
    else option=$word given+="$word "
    fi
  done
EITHER  if [[ -n $file ]]; then
    NAME_paths -f "$current"
  elif [[ -n $option ]]; then
    NAME_values "$option" "$current"
  elif [[ -z $ended && $current == --*=* ]]; then
    NAME_values "${current%%=*}" "${current#*=}"
    # Where bash has not cut the word, the option is a part of what is completed.
    [[ $COMP_WORDBREAKS == *=* ]] || COMPREPLY=("${COMPREPLY[@]/#/${current%%=*}=}")
  elif [[ -z $ended && ( $current == -* || ( -n $job && -z $current ) ) ]]; then
    compopt -o nospace 2>/dev/null
    for option in $(NAME_options "$job"); do
      [[ $given == *" ${option%=} "* || $option != "$current"* ]] || COMPREPLY+=("$option")
    done
  LAST
  fi
}

complete -F NAME PROGRAM
"""


def shown(name: str, option: Option) -> str:
    return f"{name}={option.takes}" if option.takes else name


def has_to_be_given(grammar: Grammar, name: str) -> bool:
    return name in grammar.wanted.values()


def help_rows(grammar: Grammar) -> Iterator[tuple[str, str, str]]:
    """Each option, its jobs, and what it says."""
    for name, option in grammar.options.items():
        says = option.says
        if has_to_be_given(grammar, name):
            says += " (it has to be given)"
        elif option.default:
            says += f" ({option.default})"
        yield shown(name, option), ", ".join(option.jobs), says
    if grammar.force:
        yield "--force", "", grammar.force


def help_block(grammar: Grammar) -> str:
    rows = list(help_rows(grammar))
    first, second = (max(len(row[at]) for row in rows) for at in (0, 1))
    margin = 2 + first + 2 + (second + 2 if second else 0)
    lines: list[str] = []
    for name, jobs, says in rows:
        head = f"  {name:{first}}  " + (f"{jobs:{second}}  " if second else "")
        body = textwrap.wrap(says, HELP_WIDTH - margin, break_on_hyphens=False, break_long_words=False)
        lines += [head + body[0], *(" " * margin + line for line in body[1:])]
    return "\n".join(lines) + "\n"


def in_man(text: str) -> str:
    """A text with its options in bold."""
    bold = re.sub(r"(?<![\w-])--[a-z][a-z-]*", lambda found: rf"\fB{found[0]}\fP", text)
    return bold.replace("-", r"\-")


def sentences(text: str) -> list[str]:
    """Each sentence of what an option says, on lines of its own."""
    found = re.split(r"(?<=\.) (?=[A-Z])", text[0].upper() + text[1:] + ".")
    return [line for it in found for line in textwrap.wrap(it, MAN_WIDTH, break_on_hyphens=False, break_long_words=False)]


def man_entries(grammar: Grammar) -> Iterator[str]:
    for name, option in grammar.options.items():
        yield ".TP"
        yield f".BI {in_man_name(name)}= {option.takes}" if option.takes else f".B {in_man_name(name)}"
        says = option.says
        if option.jobs:
            of = listed([rf"\fB{job}\fP" for job in option.jobs], "and")
            yield f"Of {of}{', where it has to be given' if has_to_be_given(grammar, name) else ''}."
        if option.default:
            says += f". Where it is not given: {option.default}"
        yield from (in_man(line) for line in sentences(says))
    if grammar.force:
        yield ".TP"
        yield r".B \-\-force"
        yield "Taken by the script, and refused by the program itself."
        yield from (in_man(line) for line in sentences(grammar.force))


def in_man_name(name: str) -> str:
    return name.replace("-", r"\-")


def man_block(grammar: Grammar, before: str) -> str:
    """The entries, behind the words that the section begins with."""
    opening = before[: before.index(".TP\n")] if ".TP\n" in before else before
    return opening + "\n".join(man_entries(grammar)) + "\n"


def completion(program: str, grammar: Grammar) -> str:
    def words(job: str) -> str:
        mine = [(name, option) for name, option in grammar.options.items() if not job or not option.jobs or job in option.jobs]
        return " ".join(name + ("" if option.is_flag else "=") for name, option in mine)

    jobs = [job for job in grammar.jobs if words(job)]
    cases = "".join(f"    {job}) echo '{words(job)}' ;;\n" for job in jobs) + f"    '') echo '{words('')}' ;;\n"
    name = "_" + program.replace("-", "_")
    values = ""
    for it, option in grammar.options.items():
        if option.offers in (FILES, FOLDERS):
            values += f'    {it}) NAME_paths {option.offers[0]} "$2" ;;\n'
        elif option.offers:
            values += f"    {it}) values=({' '.join(option.offers)}) ;;\n"
    either = "".join(
        f"  # One of the two is taken.\n  case $given in *' {one} '* | *' {other} '*) given+='{one} {other} ' ;; esac\n" for one, other in grammar.either
    )
    plain = "job=$word" if grammar.jobs else "given+='--image '" if grammar.takes_path else ":"
    if grammar.jobs:
        last = f"elif [[ -z $job ]]; then\n    mapfile -t COMPREPLY < <(compgen -W '{' '.join(grammar.jobs)}' -- \"$current\")"
    else:
        last = 'else\n    NAME_paths -f "$current"'
    flags = " ".join(name for name, option in grammar.options.items() if option.is_flag)
    out = COMPLETION
    for label, text in (("OPTIONS", cases), ("VALUES", values), ("PLAIN", plain), ("FLAGS", flags), ("EITHER", either), ("LAST", last)):
        out = out.replace(label, text, 1)
    return out.replace("NAME", name).replace("PROGRAM", program)


def replaced(pattern: re.Pattern[str], text: str, path: Path, block: str) -> str:
    found = pattern.findall(text)
    if len(found) != 1:
        raise SystemExit(f"{path}: there is not one place for options, but {len(found)}")
    return pattern.sub(lambda _: block, text)


def texts() -> Iterator[tuple[Path, str]]:
    """Each file with what it has to say."""
    for program, grammar in GRAMMARS.items():
        path = TOP / "tools" / f"help{program.removeprefix('apei')}.txt"
        yield path, replaced(HELP_BLOCK, path.read_text(), path, help_block(grammar))
        path = TOP / "docs" / f"{program}.1"
        page = path.read_text()
        found = MAN_BLOCK.search(page)
        yield path, replaced(MAN_BLOCK, page, path, man_block(grammar, found[0] if found else ""))
        path = TOP / "tools" / "completions" / f"{program}.bash"
        yield path, completion(program, grammar)


def main(words: list[str]) -> int:
    wrong = 0
    for path, text in texts():
        if path.read_text() == text:
            continue
        if "--check" in words:
            print(f"{path.relative_to(TOP)} says something else than tools/words.py: tools/run option_texts writes it", file=sys.stderr)
            wrong = 1
        else:
            path.write_text(text)
    if "--check" in words and not wrong:
        print("as the option list of tools/words.py")
    return wrong
