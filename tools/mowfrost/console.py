"""How the tools read, write, complain and end: plain messages, no traceback for what is no fault of the program."""

from __future__ import annotations

import os
import sys
from typing import Callable

FAULTS_SHOWN = 20


class Stop(Exception):
    """Ends a tool with a message; the status is 1 for a bad input, 2 for wrong usage or a file that cannot be used."""

    def __init__(self, status: int, *messages: str) -> None:
        super().__init__(*messages)
        self.status = status
        self.messages = messages


def run(tool: str, main: Callable[[], None]) -> None:
    """Runs a tool to its exit status. A reader that has seen enough is no fault."""
    try:
        main()
        if sys.stdout is not None:
            sys.stdout.flush()
    except Stop as stop:
        end(tool, stop.status, *stop.messages)
    except BrokenPipeError:
        end(tool, 0)
    except OSError as fault:
        end(tool, 2, f"cannot write: {fault.strerror or fault}")
    except KeyboardInterrupt:
        end(tool, 130)


def end(tool: str, status: int, *messages: str) -> None:
    """Writes the messages and exits; what standard output would not take is dropped, lest Python try again."""
    tell(tool, *messages)
    if sys.stdout is not None:
        os.dup2(os.open(os.devnull, os.O_WRONLY), sys.stdout.fileno())
    sys.exit(status)


def tell(tool: str, *messages: str) -> None:
    """Writes to standard error; where that is closed, nowhere: print would turn to standard output and its bytes."""
    if sys.stderr is not None:
        for message in messages:
            print(f"{tool}: {message}", file=sys.stderr)


def read_input(name: str) -> bytes:
    """All bytes of the file, or of standard input for '-'."""
    try:
        if name != "-":
            with open(name, "rb") as file:
                return file.read()
        if sys.stdin is None:
            raise Stop(2, "standard input is closed")
        return sys.stdin.buffer.read()
    except OSError as fault:
        raise Stop(2, f"cannot read {shown(name)}: {fault.strerror or fault}") from None


def check_target(name: str, out: str | None, what: str) -> None:
    """Stops where the output cannot go: nowhere, or over the input itself, which would be lost."""
    if out is None:
        if sys.stdout is None:
            raise Stop(2, "standard output is closed")
    elif os.path.exists(name) and os.path.exists(out) and os.path.samefile(out, name):
        raise Stop(2, f"--out names {what} itself, which would be lost")


def write_output(data: bytes, out: str | None) -> None:
    """To the file, or to standard output."""
    if out is None:
        sys.stdout.buffer.write(data)
        return
    try:
        with open(out, "wb") as file:
            file.write(data)
    except OSError as fault:
        raise Stop(2, f"cannot write {out}: {fault.strerror or fault}") from None


def shown(name: str) -> str:
    """A file's name in a message."""
    return "standard input" if name == "-" else name


def capped(messages: list[str]) -> list[str]:
    """The first messages, and how many more there are."""
    more = len(messages) - FAULTS_SHOWN
    return messages[:FAULTS_SHOWN] + ([f"and {more} more"] if more > 0 else [])
