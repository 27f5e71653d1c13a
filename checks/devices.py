"""The proved program before devices that fail, are slow or are interrupted, and with little memory."""

import fcntl
import os
import resource
import signal
import socket
import struct
import subprocess
import tempfile
import time
from dataclasses import dataclass
from pathlib import Path

import programs
import samples

PROGRAM = programs.path("dnscanon")

# The statuses and their lines on standard error, as the table in ../README.md has them.
NOTES = {0: b"", 3: b"bad hex\n", 5: b"usage\n", 6: b"read fault\n", 7: b"write fault\n", 8: b"out of memory\n", 14: b""}

# A time limit of a socket that no run reaches: seconds, and microseconds.
TIME_LIMIT = struct.pack("ll", 10_000, 0)

# No run takes longer than this many seconds, or more memory than this.
LONGEST = 300
MOST_KILOBYTES = 100_000

# No message takes more memory than this.
MOST_FOR_A_MESSAGE = 20 * 1024


@dataclass
class Command:
    name: str
    words: list
    text: bytes
    lines: bytes
    # Words and a text that are refused, and the status for that.
    bad: tuple

    @property
    def reads(self):
        return self.words[0] != "make"


CANON = Command("canon", ["canon"], samples.text("edns-transfer"), samples.lines("edns-transfer"), (["canon"], b"0g", 3))
SAME = Command("same", ["same"], samples.TWO_ALIKE, b"same\n", (["same"], b"0g", 3))
MAKE = Command("make", ["make", "1000"], b"", samples.MADE_1000, (["make", "1001"], b"", 5))
LONG = Command("canon on a long message", ["canon"], *samples.long_message(), (["canon"], b"0g", 3))
ZONE = Command("zone", ["zone", "example."], samples.ZONE, samples.ZONE_TEXT, (["zone", "example."], b"0g", 3))
COMMANDS = [CANON, SAME, MAKE, LONG, ZONE]


def fault(status, printed, noted, wanted, lines, notes):
    """What is wrong with the end of a run; nothing if it ended with the wanted status, its line and what belongs to it."""
    if status < 0:
        return f"ended by signal {-status}"
    if status not in wanted:
        return f"status {status}"
    if noted is not None and noted != (NOTES[status] if notes is None else notes):
        return f"status {status}, and {noted[:40]} on standard error"
    if not (printed == lines if status == 0 else lines.startswith(printed) if status == 7 else printed == b""):
        return f"status {status}, and {len(printed)} octets on standard output that are not those of the lines"
    return None


def judge(report, name, status, printed, noted, wanted, lines, notes=None, size=None):
    """Reports on the end of a run. The notes are not looked at if they are None, as when nobody could read them. If a size
    is given, that many octets must be written."""
    wrong = fault(status, printed, noted, (wanted,), lines, notes)
    written = f"{len(printed)} of {len(lines)} octets written" if printed else "nothing written"
    is_ok = wrong is None and size in (None, len(printed))
    report.add(name, wrong or f"status {status}, {written}", is_ok)


def run(words, text, before=None, **streams):
    """The status of a run and what it wrote, as far as it wrote into pipes of ours."""
    ours = {"stdout": subprocess.PIPE, "stderr": subprocess.PIPE, **streams}
    if "stdin" not in ours:
        ours["input"] = text
    ran = subprocess.run([PROGRAM, *words], preexec_fn=before, timeout=LONGEST, **ours)
    return ran.returncode, ran.stdout or b"", ran.stderr or b""


def start(words, stdin, stdout=subprocess.PIPE):
    return subprocess.Popen([PROGRAM, *words], stdin=stdin, stdout=stdout, stderr=subprocess.PIPE)


def shell(redirections, words, text):
    """The same, with redirections of the shell."""
    line = ["sh", "-c", f'exec "$0" "$@" {redirections}', PROGRAM, *words]
    ran = subprocess.run(line, input=text, capture_output=True, timeout=LONGEST)
    return ran.returncode, ran.stdout, ran.stderr


def check_redirections(report):
    """Streams that are closed, or devices that fail at each call."""
    for command in COMMANDS:
        bad_words, bad_text, bad_status = command.bad
        read_fault = 6 if command.reads else 0
        for name, redirections, status in (
            ("as it is", "", 0),
            ("closed standard input", "<&-", read_fault),
            ("standard input that is open for writing alone", "0>/dev/null", read_fault),
            ("a folder as standard input", "</", read_fault),
            ("closed standard output", ">&-", 7),
            ("standard output that is open for reading alone", "1</dev/null", 7),
            ("/dev/full as standard output", ">/dev/full", 7),
        ):
            ended = shell(redirections, command.words, command.text)
            judge(report, f"{command.name}, {name}", *ended, status, command.lines)
        for name, redirections, status in (
            ("closed standard error", "2>&-", 0),
            ("/dev/full as standard error", "2>/dev/full", 0),
            ("closed standard input and error", "<&- 2>&-", read_fault),
            ("closed standard output and error", ">&- 2>&-", 7),
            ("all three closed", "<&- >&- 2>&-", 6 if command.reads else 7),
        ):
            ended = shell(redirections, command.words, command.text)
            judge(report, f"{command.name}, {name}", *ended, status, command.lines, notes=b"")
        for name, redirections, notes in (
            ("refused", "", None),
            ("refused, and /dev/full as standard output", ">/dev/full", None),
            ("refused, and closed standard error", "2>&-", b""),
            ("refused, and /dev/full as standard error", "2>/dev/full", b""),
        ):
            ended = shell(redirections, bad_words, bad_text)
            judge(report, f"{command.name}, {name}", *ended, bad_status, b"", notes)
    judge(report, "a word that is not UTF-8", *run([b"can\xff"], b""), 14, b"")


def start_into_pipe(command):
    """Starts a command that writes into a pipe of 4,096 octets, and gives the end to read from."""
    back, front = os.pipe()
    fcntl.fcntl(front, fcntl.F_SETPIPE_SZ, 4096)
    with tempfile.TemporaryFile() as given:
        given.write(command.text)
        given.seek(0)
        running = start(command.words, given, front)
    os.close(front)
    return running, back


def read_all(back, size):
    """All that comes from a pipe, at most `size` octets at a time."""
    printed = bytearray()
    while piece := os.read(back, size):
        printed += piece
    os.close(back)
    return bytes(printed)


def check_readers_that_go(report):
    """Pipes whose reader goes away before the first octet, or when it has some."""
    for command in COMMANDS:
        back, front = os.pipe()
        os.close(back)
        status, _, noted = run(command.words, command.text, stdout=front)
        os.close(front)
        judge(report, f"{command.name}, a pipe that nobody reads", status, b"", noted, 7, command.lines)

        back, front = os.pipe()
        os.close(back)
        words, text, refused = command.bad
        status, printed, _ = run(words, text, stderr=front)
        os.close(front)
        judge(report, f"{command.name}, refused, and nobody reads standard error", status, printed, None, refused, b"")
    for command, count in ((CANON, 1), (CANON, 9000), (LONG, 1), (LONG, 200_000)):
        running, back = start_into_pipe(command)
        printed = b""
        while len(printed) < count:
            printed += os.read(back, count - len(printed))
        os.close(back)
        noted = running.communicate(timeout=LONGEST)[1]
        name = f"{command.name}, a pipe whose reader goes away after {count} octets"
        judge(report, name, running.returncode, printed, noted, 7, command.lines)


def check_full_files(report):
    """Files that may have a given number of octets and no more (the limit is `ulimit -f`, with its signal ignored)."""
    for command in COMMANDS:
        size = len(command.lines)
        limits = sorted({*range(0, size, max(1, size // 50)), 4096 if size > 4096 else 0, size - 1, size})
        wrong = []
        for limit in limits:

            def before():
                signal.signal(signal.SIGXFSZ, signal.SIG_IGN)
                resource.setrlimit(resource.RLIMIT_FSIZE, (limit, limit))

            with tempfile.TemporaryFile() as file:
                status, _, noted = run(command.words, command.text, before, stdout=file, restore_signals=False)
                file.seek(0)
                printed = file.read()
            wanted = 0 if limit == size else 7
            found = fault(status, printed, noted, (wanted,), command.lines, None)
            if found is None and len(printed) != limit:
                found = f"{len(printed)} octets"
            wrong += [f"at {limit}: {found}"] * (found is not None)
        came = f"{len(limits) - 1} limits below {size} octets with status 7 and a file that is full, then status 0"
        report.add(f"{command.name}, a limit on the file", "; ".join(wrong) or came, not wrong)


def check_full_disk(report):
    """Files on a file system of a given number of octets, some of which are free."""
    script = (
        'mount -t tmpfs -o "size=$2" none "$1" && cd "$1" && head -c $(($2 - $3)) /dev/zero >zeros || exit 99; '
        'shift 3; "$0" "$@" >lines; status=$?; cat lines; exit $status'
    )
    for command, size, free in (
        (CANON, 4096, 4096),
        (CANON, 4096, 0),
        (SAME, 4096, 0),
        (MAKE, 4096, 0),
        (LONG, 200_704, 200_704),
    ):
        with tempfile.TemporaryDirectory() as folder:
            line = ["unshare", "--user", "--map-root-user", "--mount", "sh", "-c", script]
            line += [PROGRAM, folder, str(size), str(free), *command.words]
            ran = subprocess.run(line, input=command.text, capture_output=True, timeout=LONGEST)
        name = f"{command.name}, a full disk with {free} octets left"
        judge(report, name, ran.returncode, ran.stdout, ran.stderr, 7, command.lines, size=free)


def check_slow_streams(report):
    """One octet at a time: each read gives one, or the reader takes one before the next."""
    for command in (CANON, SAME):
        # In a pipe of packets a read gives what one write put there.
        back, front = os.pipe2(os.O_DIRECT)
        running = start(command.words, back)
        os.close(back)
        time.sleep(0.5)
        for octet in command.text:
            os.write(front, bytes([octet]))
        os.close(front)
        printed, noted = running.communicate(timeout=LONGEST)
        name = f"{command.name}, a writer that gives one octet at a time"
        judge(report, name, running.returncode, printed, noted, 0, command.lines)
    for command in COMMANDS:
        running, back = start_into_pipe(command)
        time.sleep(0.5)
        printed = read_all(back, 1)
        noted = running.communicate(timeout=LONGEST)[1]
        name = f"{command.name}, a reader that takes one octet at a time"
        judge(report, name, running.returncode, printed, noted, 0, command.lines)


# How the system reports that a process waits in a read of standard input, or in a write to standard output.
READING = "0 0x0 "
WRITING = "1 0x1 "


def wait_until(is_so):
    end = time.monotonic() + LONGEST
    while not is_so():
        if time.monotonic() > end:
            raise TimeoutError
        time.sleep(0.01)


def stop_and_go(running, call):
    """Stops the process while it waits in this call, and lets it go on."""
    place = Path("/proc", str(running.pid))
    wait_until(lambda: (place / "syscall").read_text().startswith(call))
    running.send_signal(signal.SIGSTOP)
    wait_until(lambda: "State:\tT" in (place / "status").read_text())
    running.send_signal(signal.SIGCONT)


def check_stopped_calls(report):
    """SIGSTOP and SIGCONT in the midst of a read, and of a write of which a part was taken. The system takes the read up again."""
    for command in (CANON, SAME):
        running = start(command.words, subprocess.PIPE)
        stop_and_go(running, READING)
        half = len(command.text) // 2
        running.stdin.write(command.text[:half])
        running.stdin.flush()
        time.sleep(0.5)
        stop_and_go(running, READING)
        printed, noted = running.communicate(command.text[half:], timeout=LONGEST)
        name = f"{command.name}, stopped in two reads"
        judge(report, name, running.returncode, printed, noted, 0, command.lines)
    for command in (CANON, LONG):
        running, back = start_into_pipe(command)
        stop_and_go(running, WRITING)
        printed = read_all(back, 4096)
        noted = running.communicate(timeout=LONGEST)[1]
        name = f"{command.name}, stopped in a write"
        judge(report, name, running.returncode, printed, noted, 0, command.lines)


def check_interrupted_calls(report):
    """The same on sockets with a time limit, where the system ends a call by EINTR that was stopped before the first octet."""
    for command, count in ((CANON, 0), (CANON, 5000), (SAME, 0)):
        ours, theirs = socket.socketpair()
        theirs.setsockopt(socket.SOL_SOCKET, socket.SO_RCVTIMEO, TIME_LIMIT)
        running = start(command.words, theirs)
        theirs.close()
        ours.sendall(command.text[:count])
        time.sleep(0.5)
        stop_and_go(running, READING)
        printed, noted = running.communicate(timeout=LONGEST)
        ours.close()
        name = f"{command.name}, a read that is interrupted after {count} octets"
        judge(report, name, running.returncode, printed, noted, 6, command.lines)
    ours, theirs = socket.socketpair()
    theirs.setsockopt(socket.SOL_SOCKET, socket.SO_SNDTIMEO, TIME_LIMIT)
    theirs.setsockopt(socket.SOL_SOCKET, socket.SO_SNDBUF, 4096)
    running = start(LONG.words, subprocess.PIPE, theirs)
    theirs.close()
    running.stdin.write(LONG.text)
    running.stdin.close()
    # The first stop ends a write that gave some octets, and the second one that gave none.
    stop_and_go(running, WRITING)
    time.sleep(0.5)
    stop_and_go(running, WRITING)
    running.wait(LONGEST)
    printed = read_all(ours.detach(), 4096)
    name = f"{LONG.name}, a write that is interrupted"
    judge(report, name, running.returncode, printed, running.stderr.read(), 7, LONG.lines)


def calls_of(command, call, descriptor):
    """The numbers, from 1, of the calls of this name that are made on a descriptor, of all of this name that a run makes."""
    with tempfile.NamedTemporaryFile("r") as log:
        line = ["strace", "-o", log.name, "-e", f"trace={call}", PROGRAM, *command.words]
        subprocess.run(line, input=command.text, capture_output=True, timeout=LONGEST, check=True)
        made = [it for it in log if it.startswith(f"{call}(")]
    return [number for number, it in enumerate(made, 1) if it.startswith(f"{call}({descriptor},")]


def check_failing_calls(report):
    """Each read, and each write, in turn: it fails by EINTR, as when a signal came before an octet did, or by EIO."""
    for command in COMMANDS:
        for call, descriptor, fails in (("read", 0, 6), ("write", 1, 7)):
            for error in ("EINTR", "EIO"):
                numbers = calls_of(command, call, descriptor)
                if call == "read" and not command.reads:
                    report.add(f"{command.name}, no read", f"{len(numbers)} reads of standard input", not numbers)
                    break
                wrong = []
                for number in numbers:
                    inject = f"inject={call}:error={error}:when={number}"
                    line = ["strace", "-o", "/dev/null", "-e", f"trace={call}", "-e", inject, PROGRAM, *command.words]
                    ran = subprocess.run(line, input=command.text, capture_output=True, timeout=LONGEST)
                    found = fault(ran.returncode, ran.stdout, ran.stderr, (fails,), command.lines, None)
                    wrong += [f"{call} {number}: {found}"] * (found is not None)
                came = f"{len(numbers)} {call}s in turn, each with status {fails}"
                report.add(f"{command.name}, {call}s that fail by {error}", "; ".join(wrong) or came, bool(numbers) and not wrong)


def check_memory_limits(report):
    """`ulimit -v` raised page by page until a run ends 0. Below the first limit at which a run without words ends by a status of
    its own, the system can't load the program."""

    def limited(kilobytes, words, text):
        line = ["sh", "-c", f'ulimit -v {kilobytes}; exec "$0" "$@"', PROGRAM, *words]
        ran = subprocess.run(line, input=text, capture_output=True, timeout=LONGEST)
        return ran.returncode, ran.stdout, ran.stderr

    limits = range(4, MOST_KILOBYTES, 4)
    first = next(limit for limit in limits if limited(limit, [], b"")[0] in NOTES)
    for command in COMMANDS:
        wrong, refused, done = [], 0, None
        for limit in range(first, MOST_KILOBYTES, 4):
            status, printed, noted = limited(limit, command.words, command.text)
            # Without memory for its own words the program has no line.
            is_bare = status == 8 and noted == b""
            found = fault(status, printed, noted, (0, 8), command.lines, b"" if is_bare else None)
            wrong += [f"at {limit} KB: {found}"] * (found is not None)
            if status == 0:
                done = limit
                break
            refused += 1
        came = f"from {first} KB up {refused} limits with status 8, then status 0 at {done} KB"
        came += f"; {len(wrong)} not so: {'; '.join(wrong[:3])}" if wrong else ""
        report.add(f"{command.name}, a limit on memory", came, done is not None and refused > 0 and not wrong)


def check_largest_message(report):
    """`canon` on the message that takes the most memory of those that were found, which must be enough."""
    text, lines = samples.largest_message()
    line = ["sh", "-c", f'ulimit -v {MOST_FOR_A_MESSAGE}; exec "$0" "$@"', PROGRAM, "canon"]
    ran = subprocess.run(line, input=text, capture_output=True, timeout=LONGEST)
    came = f"with {MOST_FOR_A_MESSAGE} KB status {ran.returncode}, {len(ran.stdout):,} octets of lines"
    report.add("canon on the largest message", came, ran.returncode == 0 and ran.stdout == lines)


def check(report):
    if not programs.is_built(report, "dnscanon"):
        return
    for part in (
        check_redirections,
        check_readers_that_go,
        check_full_files,
        check_full_disk,
        check_slow_streams,
        check_stopped_calls,
        check_interrupted_calls,
        check_failing_calls,
        check_memory_limits,
        check_largest_message,
    ):
        part(report)
