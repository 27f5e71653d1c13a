#!/usr/bin/env python3
"""Compares what the examples for C, Rust, Go and Python print by the C library with what `dnscanon` prints, on all samples; and calls the library
under valgrind, from four threads, and with each request for memory refused. README.md says more.

`make -C c check` runs it. It needs the program and the library built, gcc, clang, rustc, pkg-config, valgrind and nm, and goes without Go if
that is not installed."""
import os
import shutil
import subprocess
import sys
import tempfile
from pathlib import Path

sys.dont_write_bytecode = True

import samples
from report import Report

ROOT = samples.ROOT
PROGRAM = str(ROOT / "crates" / "dnscanon" / "out" / "dnscanon")
OUT = ROOT / "c" / "out"
EXAMPLES = ROOT / "c" / "examples"
CHECKS = ROOT / "c" / "checks"
STRICT = ["-std=c11", "-O2", "-Wall", "-Wextra", "-Werror", f"-I{ROOT / 'include'}"]
ARCHIVE = str(OUT / "libnelgvasti.a")
WRAPPED = ["-Wl,--wrap=malloc,--wrap=realloc,--wrap=free"]


def built(words):
    subprocess.run([str(word) for word in words], check=True, cwd=EXAMPLES)
    return words[words.index("-o") + 1]


def callers(folder):
    """How each example is run, by name."""
    lines = EXAMPLES / "lines.c"
    source = str(EXAMPLES / "lines.rs")
    with_gcc = built(["gcc", *STRICT, lines, ARCHIVE, "-o", folder / "gcc"])
    with_clang = built(["clang", *STRICT, lines, f"-L{OUT}", "-lnelgvasti", "-o", folder / "clang"])
    with_rustc = built(["rustc", "--edition", "2021", "-O", "-L", OUT, "-l", "static=nelgvasti", source, "-o", folder / "rust"])
    return {"gcc": [with_gcc], "clang and the shared object": [with_clang], "Rust": [with_rustc], "Python": [sys.executable, "-B", str(EXAMPLES / "lines.py")]}


def with_go(folder, prefix):
    """How the example for Go is run, which is built with what is installed."""
    environment = {**os.environ, "PKG_CONFIG_PATH": str(prefix / "lib" / "pkgconfig"), "GOCACHE": str(folder / "cache"), "GOFLAGS": "-mod=mod"}
    subprocess.run(["go", "vet", "./..."], check=True, cwd=EXAMPLES / "go", env=environment)
    subprocess.run(["go", "build", "-o", folder / "go", "."], check=True, cwd=EXAMPLES / "go", env=environment)
    return [folder / "go"]


def run(command, text):
    environment = {**os.environ, "LD_LIBRARY_PATH": str(OUT), "NELGVASTI": str(OUT / "libnelgvasti.so.0")}
    ended = subprocess.run([str(word) for word in command], input=text, stdout=subprocess.PIPE, stderr=subprocess.PIPE, env=environment)
    return ended.returncode, ended.stdout, ended.stderr


def cases():
    """Words and text of each run: every sample with each command that reads one message and beside the sample after it, the zones, messages
    that are refused, and hashes."""
    names = sorted(path.stem for path in (ROOT / "samples").glob("*.hex"))
    for name, other in zip(names, names[1:] + names[:1]):
        yield from ((words, samples.text(name)) for words in (["canon"], ["normal"], ["keytags"], ["zone", "example."]))
        yield ["same"], samples.text(name) + samples.text(other)
    yield ["same"], samples.TWO_ALIKE
    yield ["zone", "example."], samples.text("signed-zone") + samples.text("signed-zone-with-hashed-names")
    for text in (b"0000", b"123481800000000100000000" + b"01610000010001000000000003c00002", b""):
        yield from ((words, text) for words in (["canon"], ["normal"], ["keytags"]))
        yield ["same"], samples.text("address") + text
        yield ["zone", "example."], samples.ZONE + text
    for words in (["example.", "aabbccdd", "12"], ["", "-", "0"], ["NS1.Example.ORG.", "ff" * 255, "500"], ["a" * 64 + ".", "-", "0"]):
        yield ["hash", *words], b""


def compare(report, name, command, given, wanted):
    wrong = 0
    for (words, text), (status, output, notes) in zip(given, wanted):
        came = run(command + words, text)
        # The program's own lines on what it refuses are not the library's; those that say where a message is refused are.
        told = notes if notes.startswith((b"short", b"item")) else came[2]
        if came != (status, output, told):
            wrong += 1
            print(f"{name}: {words}: {came[0]} for {status}")
    report.add(name, f"{len(given)} runs, {len(given) - wrong} as dnscanon", not wrong)


def check_names(report):
    shown = subprocess.run(["nm", "-D", "--defined-only", OUT / "libnelgvasti.so.0"], stdout=subprocess.PIPE, check=True).stdout.decode()
    names = {line.split()[-1].split("@")[0] for line in shown.splitlines() if " T " in line}
    declared = {line.split("(")[0].split()[-1] for line in (ROOT / "include" / "nelgvasti.h").read_text().splitlines() if line.startswith("uint32_t ")}
    writable = subprocess.run(["nm", OUT / "libnelgvasti.a"], stdout=subprocess.PIPE, check=True).stdout.decode()
    variables = [line for line in writable.splitlines() if " D " in line or " d " in line or " B " in line]
    report.add("names of the shared object", f"{len(names)} shown", names == declared and not variables)


def check_memory(report, folder):
    text = samples.ZONE
    program = built(["gcc", *STRICT, *WRAPPED, CHECKS / "memory.c", ARCHIVE, "-o", folder / "memory"])
    status, output, _ = run([program], text)
    report.add("refused requests", ", ".join(output.decode().splitlines()), status == 0)
    program = built(["gcc", *STRICT, CHECKS / "threads.c", ARCHIVE, "-pthread", "-o", folder / "threads"])
    status, output, _ = run([program], text)
    report.add("four threads", output.decode().strip(), (status, output) == (0, b"same\n"))


def check_valgrind(report, command, given):
    watched = ["valgrind", "-q", "--error-exitcode=99", "--leak-check=full", "--errors-for-leak-kinds=all", *command]
    wrong = [words for words, text in given if run(watched + words, text)[0] == 99]
    report.add("valgrind", f"{len(given)} runs, {len(given) - len(wrong)} clean", not wrong)


def check_install(report, folder):
    prefix = folder / "prefix"
    subprocess.run(["make", "-s", "-C", ROOT / "c", "install", f"PREFIX={prefix}"], check=True, stdout=subprocess.DEVNULL)
    environment = {**os.environ, "PKG_CONFIG_PATH": str(prefix / "lib" / "pkgconfig")}
    flags = subprocess.run(["pkg-config", "--cflags", "--libs", "nelgvasti"], env=environment, stdout=subprocess.PIPE, check=True).stdout.decode().split()
    program = built(["gcc", "-std=c11", EXAMPLES / "lines.c", *flags, "-o", folder / "installed"])
    came = subprocess.run([program, "canon"], input=samples.text("address"), stdout=subprocess.PIPE, env={"LD_LIBRARY_PATH": str(prefix / "lib")})
    report.add("installed", "canon of one sample", came.stdout == samples.lines("address"))
    return prefix


def main():
    report = Report()
    given = list(cases())
    wanted = [run([PROGRAM, *words], text) for words, text in given]
    with tempfile.TemporaryDirectory() as name:
        folder = Path(name)
        check_names(report)
        commands = callers(folder)
        prefix = check_install(report, folder)
        if shutil.which("go"):
            commands["Go"] = with_go(folder, prefix)
        for name, command in commands.items():
            compare(report, name, command, given, wanted)
        check_memory(report, folder)
        check_valgrind(report, commands["gcc"], given[::7])
    return report.end()


sys.exit(main())
