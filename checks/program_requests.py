"""Requests for memory of the built programs, refused one after another by the library of refuse_memory.c."""

import os
import struct
import subprocess
import tempfile
from dataclasses import dataclass, replace
from pathlib import Path

import programs
import samples
from refusals import Case, Ended

# More requests than any run makes.
MOST = 1000

# The functions that refuse_memory.c replaces, and others by which a program may take memory, which it must not call.
REPLACED = {"malloc", "calloc", "realloc", "aligned_alloc", "posix_memalign"}
OTHERS = {"memalign", "valloc", "pvalloc", "reallocarray", "mmap", "mmap64", "mremap", "brk", "sbrk", "dlopen", "pthread_create"}

# A run without memory for its own words notes nothing.
WORDS_REFUSED = Ended(8, b"", b"")


@dataclass
class Run(Case):
    """A run of a program. Its first requests are for its own words."""

    program: str
    words: list
    # How many requests are for its words.
    for_words: int = 0

    def is_refused(self, number, ended):
        return number > self.for_words and super().is_refused(number, ended)

    def is_of_arguments(self, number, ended):
        return number <= self.for_words and self.is_like(ended, WORDS_REFUSED)


class LinesRun(Run):
    """A run of `dnslines`, which may have written the answers to some first lines if memory is refused."""

    def is_refused(self, number, ended):
        is_front = self.done.printed.startswith(ended.printed) and (not ended.printed or ended.printed.endswith(b"\n"))
        return is_front and super().is_refused(number, replace(ended, printed=b""))


REFUSED = Ended(8, b"", b"out of memory\n")


def runs():
    """Each command of `dnscanon`."""
    apex = "compressed-apex"
    for name, words, text, printed in (
        ("canon", ["canon"], samples.text(apex), samples.lines(apex)),
        ("canon of 1,000 equal records", ["canon"], samples.THOUSAND_ALIKE, samples.THOUSAND_LINE),
        ("same", ["same"], samples.TWO_ALIKE, b"same\n"),
        ("make 1", ["make", "1"], b"", samples.MADE_1),
        ("zone", ["zone", "example."], samples.ZONE, samples.ZONE_TEXT),
        ("normal", ["normal"], samples.REPLY, samples.REPLY_NORMAL),
        ("hash", ["hash", "example.", "aabbccdd", "12"], b"", samples.HASHED),
        ("covers", ["covers", "b."], samples.DENIAL, b"nsec covers\n"),
        ("signed", ["signed", "0"], samples.SIGNED, samples.SIGNED_OCTETS),
        ("keytags", ["keytags"], samples.KEY, b"44736\n"),
    ):
        yield Run(f"dnscanon, {name}", text, "status 8", REFUSED, Ended(0, printed, b""), "dnscanon", words)


def line_runs():
    """Each command of `dnslines`, on a message, a line that is refused, and the message again."""
    for word, message, answer in (
        ("normal", samples.REPLY, samples.REPLY_NORMAL),
        ("digest", samples.REPLY, samples.REPLY_DIGEST),
        ("signed", samples.SIGNED, b"1 8 1 3 016200 ff " + samples.SIGNED_OCTETS),
        ("records", samples.REPLY, samples.REPLY_LINES),
    ):
        text = message.strip() + b"\nxyz\n" + message.strip() + b"\n"
        printed = answer + b"! bad hex\n" + answer
        yield LinesRun(f"dnslines, {word}", text, "status 8", REFUSED, Ended(0, printed, b""), "dnslines", [word])


def library_in(folder):
    library = Path(folder, "refuse_memory.so")
    source = samples.HERE / "refuse_memory.c"
    subprocess.run(["gcc", "-std=c11", "-O2", "-Wall", "-Wextra", "-Werror", "-shared", "-fPIC", source, "-o", library], check=True)
    return library


def ended_without(library, run, number, words=None):
    """How a run, or the same with other words, ends if the request of this number is refused. None has the number 0."""
    with tempfile.TemporaryFile() as counts:
        refusing = {"LD_PRELOAD": library, "REFUSED_REQUEST": str(number), "REQUESTS_FILE": str(counts.fileno())}
        ran = subprocess.run(
            [programs.path(run.program), *(words or run.words)],
            input=run.given, capture_output=True, env={**os.environ, **refusing}, pass_fds=[counts.fileno()],
        )
        counts.seek(0)
        asked, by_others = struct.unpack("QQ", counts.read() or bytes(16))
    # A request that the C library makes for the program is not refused, so there must be none.
    noted = ran.stderr + b" and requests of the C library" * (by_others > 0)
    return Ended(ran.returncode, ran.stdout, noted, asked)


def requests_for_words(library, run):
    """How many requests a run makes for its words: as many as with words that are no command, for which it does nothing else."""
    return ended_without(library, run, 0, [run.words[0].upper(), *run.words[1:]]).asked


def check_functions(report, name):
    """By which functions a program takes memory."""
    shown = subprocess.run(["nm", "-D", "--undefined-only", programs.path(name)], capture_output=True, text=True, check=True).stdout
    called = {line.split()[-1].split("@")[0] for line in shown.splitlines()} & (REPLACED | OTHERS)
    report.add(f"functions by which {name} takes memory", ", ".join(sorted(called)) or "none", bool(called) and called <= REPLACED)


def check(report):
    for name, cases in (("dnscanon", runs()), ("dnslines", line_runs())):
        if not programs.is_built(report, name):
            continue
        check_functions(report, name)
        with tempfile.TemporaryDirectory() as folder:
            library = library_in(folder)
            for run in cases:
                run.for_words = requests_for_words(library, run)
                for number in range(1, MOST):
                    run.take(number, ended_without(library, run, number))
                    if run.is_done:
                        break
                run.report(report)
