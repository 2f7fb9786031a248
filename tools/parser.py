"""The command line of a tool: words that are none of its words end it with status 2, also if standard error takes nothing."""

import argparse
from typing import NoReturn

from streams import write_all


class Parser(argparse.ArgumentParser):
    def error(self, message: str) -> NoReturn:
        write_all(2, f"{self.format_usage()}{self.prog}: {message}\n".encode(errors="backslashreplace"))
        raise SystemExit(2)
