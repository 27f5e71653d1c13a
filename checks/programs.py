"""The proved programs, built."""

import subprocess

import samples

# What each program is asked first, and what it must print.
FIRST = {
    "dnscanon": ("canon", samples.text("address"), samples.lines("address")),
    "dnslines": ("normal", samples.REPLY + b"\n", samples.REPLY_NORMAL),
}


def path(name):
    return str(samples.ROOT / "crates" / name / "out" / name)


def is_built(report, name):
    """Builds a program if it is not current. That proves the library, which takes its time. Reports what it answers first, and gives whether
    it is there."""
    word, text, wanted = FIRST[name]
    ran = subprocess.run([samples.ROOT / name, word], input=text, stdout=subprocess.PIPE)
    report.add(f"the proved program {name}", f"status {ran.returncode}", ran.stdout == wanted)
    return ran.returncode == 0
