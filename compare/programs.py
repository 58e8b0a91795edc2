"""Runs the two programs on requests."""
import concurrent.futures
import shlex
import subprocess

LIMIT = 120  # seconds that one run may take


class Failed(Exception):
    """A run that did not end well: what went wrong."""


class Program:
    """A program in the line form, given as command words. many: it answers any number of requests in one run. jobs: runs at a time, if not."""

    def __init__(self, command, many, jobs=1):
        self.words, self.many, self.jobs = shlex.split(command), many, jobs

    def run(self, data):
        try:
            done = subprocess.run(self.words, input=data, stdout=subprocess.PIPE, stderr=subprocess.PIPE, timeout=LIMIT)
        except subprocess.TimeoutExpired:
            raise Failed("no end after %d seconds" % LIMIT) from None
        if done.returncode:
            raise Failed("exit status %d: %s" % (done.returncode, done.stderr.decode("latin-1")[:500]))
        return done.stdout

    def one(self, data):
        """The answer, or what went wrong, as bytes."""
        try:
            return self.run(data)
        except Failed as failed:
            return b"no answer: " + str(failed).encode() + b"\n"

    def all(self, requests):
        """The answers to valid requests, in order."""
        if self.many and requests:
            try:
                answers = [a + b"end=\n" for a in self.run(b"".join(requests)).split(b"end=\n")[:-1]]
                if len(answers) == len(requests):
                    return answers
            except Failed:
                pass
        with concurrent.futures.ThreadPoolExecutor(self.jobs) as pool:
            return list(pool.map(self.one, requests))


def tell(word, count, kinds, statuses):
    print("%s=%d" % (word, count))
    for name, n in sorted(kinds.items()):
        print("  %s: %d" % (name, n))
    for status, n in sorted(statuses.items()):
        print("  status %d: %d" % (status, n))
