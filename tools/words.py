"""The command lines of the programs: their options, with what help texts, man pages and completions say of them, and the first thing that is wrong
of a line, in plain words.

The tool `top` of the gate compares this with the program: a fault is found exactly where the program ends with status 1. The tool `option_texts` writes
the texts.
"""

from typing import Callable, NamedTuple, Optional

LAST = 2**64 - 1


class Option(NamedTuple):
    """An option: its texts, its jobs, and its values."""

    says: str
    # What its value is called; nothing: it is a flag and has none.
    takes: str = ""
    # What is taken where the option is not given.
    default: str = ""
    # The jobs that it belongs to; none: the program has no jobs.
    jobs: tuple[str, ...] = ()
    # What is wrong of a value.
    fault: Callable[[str], Optional[str]] = lambda value: "a path is missing" if value == "" else None
    # The values that a completion offers: these, or files (`FILES`), or folders (`FOLDERS`).
    offers: tuple[str, ...] = ()
    # Whether the script takes it, and the program does not know it.
    is_of_script: bool = False

    @property
    def is_flag(self) -> bool:
        return not self.takes


FILES, FOLDERS = ("-f",), ("-d",)


class Grammar(NamedTuple):
    """The jobs of a program, its options, and which of them have to be given, by the job."""

    jobs: tuple[str, ...]
    options: dict[str, Option]
    wanted: dict[str, str] = {}
    # Whether one word without a `-` is the image's path, and whether there may be many, which are files.
    takes_path: bool = False
    takes_files: bool = False
    # Options of which one is taken.
    either: tuple[tuple[str, str], ...] = ()
    # What `--force` does, which only the script takes.
    force: str = ""


class Line:
    """What a command line says: its job, its options, and the first thing that is wrong of it."""

    def __init__(self) -> None:
        self.job: Optional[str] = None
        self.options: dict[str, Optional[str]] = {}
        self.path: Optional[str] = None
        # All words without a `-`, where there may be many.
        self.files: list[str] = []
        self.fault: Optional[str] = None


def number_fault(most: int) -> Callable[[str], Optional[str]]:
    def fault(value: str) -> Optional[str]:
        if value == "":
            return "a number is missing"
        if value[0] in "+-":
            return "a number has no sign"
        if not (value.isascii() and value.isdigit()):
            return "that is no decimal number"
        if value[0] == "0" and value != "0":
            return "a number has no zero before its other digits"
        return f"the greatest is {most}" if int(value) > most else None

    return fault


def show_fault(value: str) -> Optional[str]:
    names = [name.strip(" ") for name in value.split("|")] if value.strip(" ") else []
    for name in names:
        if name not in ("HEAD", "PARTS"):
            if name.upper() in ("HEAD", "PARTS"):
                return f"did you mean {name.upper()}?"
            return "HEAD, PARTS and HEAD,PARTS are what it takes"
    return None


COLORS = ("auto", "always", "never")


def color_fault(value: str) -> Optional[str]:
    return None if value in COLORS else "auto, always and never are what it takes"


NUMBER = number_fault(LAST)
SECTORS = tuple(str(1 << power) for power in range(8, 16))


def geometry(*jobs: str) -> dict[str, Option]:
    return {
        "--sector": Option("the bytes of a sector, a power of two from 256 to 32768", "N", "4096", jobs, NUMBER, SECTORS),
        "--per-slot": Option("the sectors of a slot, 2 to 16", "N", "2", jobs, NUMBER),
        "--slots": Option("the slots, 2 to 1024; a flash has at most 64 MiB", "N", "32", jobs, NUMBER),
    }


PLAYED, SIM, GEN = ("play", "sim", "gen"), ("sim",), ("gen",)
APEI = Grammar(
    ("play", "sim", "check", "gen", "hub"),
    {
        "--image": Option("the file that holds the flash; it is made, erased, if it is not there", "PATH", jobs=("play",), offers=FILES),
        **geometry(*PLAYED),
        "--steps": Option("the instructions that a line may run, at most 4294967295", "N", "as many as are enough", PLAYED, number_fault(2**32 - 1)),
        "--cut": Option("the flash change, from 0, in which power is lost until a line says power", "N", "never", SIM, NUMBER),
        "--fail": Option("the flash change, from 0, that fails", "N", "none", SIM, NUMBER),
        "--fail-read": Option("the flash read, from 0, that fails", "N", "none", SIM, NUMBER),
        "--torn": Option(
            "what the change that is cut or fails leaves in its range: 0 all as it was, 1 what was to be written, 2 bytes 0x00, 3 bytes 0xA5",
            "N",
            "0",
            SIM,
            number_fault(3),
            ("0", "1", "2", "3"),
        ),
        "--count": Option("the commands that are played, at most 100000", "N", jobs=GEN, fault=number_fault(100000)),
        "--seed": Option("the number that the generator starts with", "N", "0", GEN, NUMBER),
        "--show": Option(
            "which lines of an item: HEAD (the whole), PARTS, or HEAD,PARTS; bad items are always shown",
            "FLAGS",
            "HEAD",
            ("check",),
            show_fault,
            ("HEAD", "PARTS", "HEAD,PARTS"),
        ),
    },
    {"play": "--image", "gen": "--count"},
    force="before the job, for play on a file that is there: plays on it without a look. A file of another geometry, one that is none of ours, or a "
    "library's medium is refused otherwise (status 6)",
)
LOOK = Grammar(
    (),
    {
        "--image": Option("the file, if it does not stand by itself; it is opened for reading alone", "FILE", offers=FILES),
        **geometry(),
        "--guess": Option("takes the geometry that the file seems to have. If no head of a record says one, that of the other options"),
        "--record": Option("writes the bytes of the record of this identifier, as they stand, and nothing else", "ID", fault=NUMBER),
        "--json": Option("writes the same facts as one JSON object"),
    },
    takes_path=True,
    either=(("--json", "--record"),),
    force="writes the bytes of a record to a terminal, too",
)
SHOW = Grammar(
    (),
    {
        "--here": Option(
            "in place of files, all that this machine has: the files of pstore, the boot error region, the firmware's store by /dev/erst_dbg, and the "
            "tables. What may not be read is named, and the status is 5 then",
            is_of_script=True,
        ),
        "--keep": Option(
            "with --here: first copies it below DIR, into a new folder for what is new, with names, times and checksums. What is there stays as it is",
            "DIR",
            offers=FOLDERS,
            is_of_script=True,
        ),
        "--since-last": Option(
            "with --keep: shows only what was not kept before. The status is 10 if that has an error that was not corrected", is_of_script=True
        ),
        "--pci-ids": Option(
            "names vendors and devices of PCI by this list, and not by /usr/share/misc/pci.ids or /usr/share/hwdata/pci.ids",
            "FILE",
            offers=FILES,
            is_of_script=True,
        ),
        "--brief": Option("the first line of each item alone: what happened, how severe, where, when"),
        "--json": Option("one JSON object for each item, on one line"),
        "--bytes": Option("the place of each field beside it, counted from where its item begins"),
        "--strict": Option("status 3 if an item is bad, Linux will not take all of a table, or a file holds none of these"),
        "--color": Option("colours: auto (on a terminal), always or never", "WHEN", "auto", fault=color_fault, offers=COLORS),
        "--smbios": Option(
            "the machine's SMBIOS structures (/sys/firmware/dmi/tables/DMI, or a file of dmidecode --dump-bin): the slot, maker and serial number of the "
            "part that a section names by its handle",
            "FILE",
            fault=lambda value: None,
            offers=FILES,
        ),
    },
    takes_files=True,
    either=(("--json", "--brief"),),
)
# The options of apei-show that the program does not know.
OF_THE_SCRIPT = tuple(name for name, option in SHOW.options.items() if option.is_of_script)
GRAMMARS = {"apei": APEI, "apei-look": LOOK, "apei-show": SHOW}


def nearest(word: str, known: list[str]) -> str:
    """The known word that is nearest to a word, as the end of a sentence; nothing where none is near."""
    from difflib import get_close_matches

    found = get_close_matches(word.lower(), known, 1, 0.5) or [it for it in known if it.startswith(word.lower()) or word.startswith(it)][:1]
    return f"; the nearest is {found[0]}" if found else ""


def listed(words: list[str], last: str) -> str:
    return words[0] if len(words) == 1 else ", ".join(words[:-1]) + f" {last} {words[-1]}"


def is_utf8(word: str) -> bool:
    try:
        word.encode()
    except UnicodeEncodeError:
        return False
    return True


class Reader:
    """Reads the words of a command line, one after another."""

    def __init__(self, grammar: Grammar, words: list[str]) -> None:
        self.grammar, self.words, self.line = grammar, list(words), Line()
        self.ended = False

    def fault(self, text: str) -> None:
        self.line.fault = self.line.fault or text

    def read(self) -> Line:
        while self.words:
            word = self.words.pop(0)
            if not is_utf8(word):
                self.fault(f"{word!r} is not UTF-8")
            elif not self.ended and word == "--":
                self.ended = True
            elif not self.ended and word.startswith("-") and word != "-":
                self.option(word)
            else:
                self.plain(word)
        self.whole()
        return self.line

    def option(self, word: str) -> None:
        name, equals, value = word.partition("=")
        option = self.grammar.options.get(name)
        if not option:
            self.fault(f"{name} is no option" + nearest(name, list(self.grammar.options)))
            return
        if name in self.line.options:
            self.fault(f"{name} stands twice")
        given: Optional[str] = value if equals else None
        if option.is_flag:
            if equals:
                self.fault(f"{name} has no value")
        elif not equals:
            given = self.value_of(name)
        self.line.options[name] = given
        wrong = option.fault(given) if given is not None and not option.is_flag else None
        if wrong:
            self.fault(f"{name}={given}: {wrong}")

    def value_of(self, name: str) -> Optional[str]:
        """The value of an option that stands in the next word."""
        if self.words and (self.words[0] == "-" or not self.words[0].startswith("-")):
            return self.words.pop(0)
        self.fault(f"{name} has no value behind it, as in {name}=VALUE")
        return None

    def plain(self, word: str) -> None:
        if self.grammar.takes_files:
            self.line.path = word
            self.line.files.append(word)
        elif not self.grammar.jobs:
            if not self.grammar.takes_path:
                self.fault(f"{word!r} is one word too many")
            elif self.line.path is not None:
                self.fault(f"{word!r} is a second path")
            elif word == "":
                self.fault("the path is empty")
            self.line.path = word
        elif self.line.job is not None:
            self.fault(f"{word!r} stands behind the job {self.line.job}, and there is one job")
        elif word not in self.grammar.jobs:
            self.line.job = word
            self.fault(f"{word!r} is no job" + nearest(word, list(self.grammar.jobs)))
        else:
            self.line.job = word

    def whole(self) -> None:
        """What is wrong of all words together."""
        line, grammar = self.line, self.grammar
        if grammar.jobs and line.job is None:
            self.fault(f"there is no job: {listed(list(grammar.jobs), 'or')}")
        for name in line.options:
            jobs = grammar.options[name].jobs
            if jobs and line.job not in jobs:
                self.fault(f"{name} belongs to {listed(list(jobs), 'and')}, and not to {line.job}")
        wanted = grammar.wanted.get(line.job or "")
        if wanted and wanted not in line.options:
            self.fault(f"{line.job} wants {wanted}=")
        if grammar.takes_path and ("--image" in line.options) == (line.path is not None):
            self.fault("the image's path is missing" if line.path is None else "the image's path is given twice")
        if grammar.takes_files:
            self.of_files()
        for one, other in grammar.either:
            if one in line.options and other in line.options:
                self.fault(f"{one} and {other} are one too many")

    def of_files(self) -> None:
        """What is wrong of the files, or of the words that stand for them."""
        options = self.line.options
        if "--here" in options and self.line.path is not None:
            self.fault("--here and a file are one too many")
        elif "--keep" in options and "--here" not in options:
            self.fault("--keep belongs to --here")
        elif "--since-last" in options and "--keep" not in options:
            self.fault("--since-last wants --keep=DIR")
        elif "--here" not in options and self.line.path is None:
            self.fault("there is no file to show")


def read(program: str, words: list[str]) -> Line:
    """What a command line of a program says."""
    return Reader(GRAMMARS[program], words).read()
