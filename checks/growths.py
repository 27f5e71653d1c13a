"""Growths of memory in calls of the library, refused one after another by `rt try --fail-alloc`."""

import re
import shutil
import subprocess
import tempfile
from dataclasses import dataclass, replace
from pathlib import Path

import samples
from refusals import Case, Ended

# The crate that is made of calls.rattle in a copy of the repository, and its line in crates.txt there.
CALLS = "refused_growths"
USES = "dns_wire dns_num dns_label dns_name dns_record dns_rdata dns_boxed dns_message dns_text dns_canon hex serde_json"

# More growths than any case has.
MOST = 100


@dataclass
class Call(Case):
    """A call of calls.rattle."""

    # Whether the lines that are printed are in another order than those that are wanted.
    in_any_order: bool = False

    REQUESTS = "growths"

    def is_like(self, ended, wanted):
        if self.in_any_order:
            ended, wanted = (replace(it, printed=sorted(it.printed.splitlines())) for it in (ended, wanted))
        return super().is_like(ended, wanted)

    def is_of_arguments(self, number, ended):
        return ended.printed == b"arguments\n"


def call(name, given, refusal, printed, noted=b"", in_any_order=False):
    """A call: its output begins with the word for how it ended, and has the notes of a run next."""
    given = name.encode() + b"\n" + given
    refused = Ended(0, refusal.encode() + b"\n" + noted, b"")
    done = Ended(0, b"done\n" + printed, b"")
    return Call(name, given, refusal, refused, done, in_any_order)


def calls():
    apex = "compressed-apex"
    name = b"".join(rb"\000" * size + b"." for size in (63, 63, 63, 61))
    label = rb"\255" * 63
    yield call("canonicalise", samples.message(apex), "CanonError::Memory", samples.lines(apex))
    for words, text, printed in (
        ("canon", samples.text(apex), samples.lines(apex)),
        ("same", samples.TWO_ALIKE, b"same\n"),
        ("make 4", b"", samples.MADE_4),
    ):
        yield call(f"run {words}", text, "Status::Memory", printed, b"out of memory\n")
    for keeping, sample, refusal in (
        ("make", "edns-apex-over-tcp", "BoxError::Memory"),
        ("parse", "edns-apex-over-tcp", "BoxError::Memory"),
        ("try_clone", apex, "AllocError"),
    ):
        content = b"".join(samples.data_of(line) + b"\n" for line in samples.lines(sample).splitlines())
        yield call(f"BoxedRecordData::{keeping}", samples.message(sample), refusal, content, in_any_order=True)
    for function, text in (("NameBuf::to_json", name), ("RevNameBuf::to_json", name), ("label_to_json", label)):
        yield call(function, text, "AllocError", text + b"\n")
    yield call("split_list", bytes(range(200)), "ListError::Memory", bytes(range(200)).hex().encode() + b"\n")


def copy_of_repository(folder):
    """A copy of the sources, with one more crate."""
    shutil.copy(samples.ROOT / "HANDLES", folder)
    crates = (samples.ROOT / "crates.txt").read_text()
    (folder / "crates.txt").write_text(f"{crates}{CALLS}: {USES}\n")
    shutil.copytree(samples.ROOT / "crates", folder / "crates", ignore=shutil.ignore_patterns("out", "must-fail"))
    source = folder / "crates" / CALLS / "src"
    source.mkdir(parents=True)
    shutil.copy(samples.HERE / "calls.rattle", source / "main.rt")


def try_all(crate, cases, number):
    """How each case ends if the growth of this number is refused, by its place in the list; and what rt said."""
    with tempfile.TemporaryDirectory() as folder:
        for place, case in cases.items():
            Path(folder, str(place)).write_bytes(case.given)
        ran = subprocess.run(
            ["rt", "try", "--fail-alloc", str(number), "--cases", folder],
            cwd=crate, stdin=subprocess.DEVNULL, capture_output=True,
        )
    parts = re.split(rb"^== (\d+)\n", ran.stdout, flags=re.MULTILINE)
    printed = {int(place): text for place, text in zip(parts[1::2], parts[2::2])}
    ended, noted, asked = {}, b"", None
    for line in ran.stderr.splitlines(keepends=True):
        counted = re.match(rb"allocations: (?:at least )?(\d+)$", line)
        end = re.match(rb"case=(\d+) run=(\w+)(?: status=(\d+))?", line)
        if counted:
            asked = None if b"at least" in line else int(counted[1])
        elif end:
            place, status = int(end[1]), int(end[3] or -1)
            ended[place] = Ended(status, printed.get(place, b""), noted, asked)
            noted, asked = b"", None
        else:
            noted += line
    return ended, ran.stderr.decode(errors="replace")


def refuse_each(report, crate, cases):
    """Refuses growth 1, 2 and so on of each case, until it ends as with ample memory."""
    left = dict(enumerate(cases))
    for number in range(1, MOST):
        if not left:
            return
        ended, said = try_all(crate, left, number)
        if ended.keys() != left.keys():
            report.add(f"refused growths, {crate.name}", f"rt try gave no answer: {said[-300:]}", False)
            return
        for place, how in ended.items():
            case = left[place]
            case.take(number, how)
            if case.is_done:
                case.report(report)
                del left[place]
    for case in left.values():
        case.report(report)


def check(report):
    with tempfile.TemporaryDirectory() as folder:
        copy_of_repository(Path(folder))
        refuse_each(report, Path(folder, "crates", CALLS), calls())
