"""A line for each check, and a summary."""


class Report:
    def __init__(self):
        self.count = 0
        self.failed = []

    def add(self, name, came, is_ok):
        """Reports what came of a check, and whether that is as the documents say."""
        print(f"{name}: {came}: {'ok' if is_ok else 'NOT OK'}", flush=True)
        self.count += 1
        if not is_ok:
            self.failed.append(name)

    def end(self):
        """Sums up, and gives the status to end with."""
        print(f"{self.count} checks, {self.count - len(self.failed)} ok, {len(self.failed)} not ok")
        return 1 if self.failed or not self.count else 0
