"""A call, or a run of a program, of which one request for memory after another is refused, and how it must end."""

from dataclasses import dataclass


@dataclass
class Ended:
    """How a run ended."""

    status: int
    printed: bytes
    noted: bytes
    # How many requests were made, if that is known.
    asked: int = None


@dataclass
class Case:
    """How something must end if a request of its own is refused, and if none is. A kind of case is a class of its own."""

    name: str
    given: bytes
    refusal: str
    refused: Ended
    done: Ended

    # What a request is called in reports.
    REQUESTS = "requests"

    def __post_init__(self):
        self.of_call = self.of_arguments = 0
        # The numbers of the requests after which a run ended otherwise, by how it ended.
        self.surprises = {}
        self.is_done = False

    def is_like(self, ended, wanted):
        return (ended.status, ended.printed, ended.noted) == (wanted.status, wanted.printed, wanted.noted)

    def is_refused(self, number, ended):
        """Whether it ended as it must if the request of this number is one of its own."""
        return self.is_like(ended, self.refused)

    def is_of_arguments(self, number, ended):
        """Whether it ended as it must if the request of this number is for its arguments."""
        raise NotImplementedError

    def take(self, number, ended):
        """Counts how a run ended in which the request of this number was refused."""
        if self.is_refused(number, ended):
            self.of_call += 1
        elif self.is_of_arguments(number, ended):
            self.of_arguments += 1
        elif self.is_like(ended, self.done) and (ended.asked is None or ended.asked < number):
            self.is_done = True
        else:
            how = f"status {ended.status}, {ended.printed[:40]} printed, {ended.noted[:40]} on standard error"
            self.surprises.setdefault(how, []).append(str(number))

    def report(self, report):
        came = f"{self.of_call} {self.REQUESTS}"
        if self.of_arguments:
            came += f", and {self.of_arguments} of its arguments"
        came += f", each refused by {self.refusal}"
        for how, numbers in self.surprises.items():
            came += f"; not so {', '.join(numbers)}: {how}"
        came += "; then done" if self.is_done else "; never done"
        report.add(f"refused {self.REQUESTS}, {self.name}", came, self.is_done and self.of_call > 0 and not self.surprises)
