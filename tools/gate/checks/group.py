"""A group of checks: calls of the program under test, and counts of what passed and what failed."""
import collections
import os
import subprocess
import time

ROOT = os.path.dirname(os.path.dirname(os.path.dirname(os.path.dirname(os.path.realpath(__file__)))))
EXAMPLES = os.path.join(ROOT, "examples")

# The seconds after which a call counts as hanging. A program that is built without optimization needs more.
LIMIT = float(os.environ.get("R3_CHECK_SECONDS", "100"))

Answer = collections.namedtuple("Answer", "status out err")


def contents(path):
    with open(path, "rb") as file:
        return file.read()


class Group:
    """The checks of one group, for one program, in a folder of its own."""

    # Set when all checks are to end at once.
    is_stopped = False

    def __init__(self, name, program, room):
        self.name = name
        self.program = program
        self.room = room
        self.passed = 0
        self.faults = []
        self.notes = []
        self.seconds = 0.0

    def run(self, checks):
        """Runs the checks of the group. An exception is a fault, so that the other groups go on."""
        start = time.monotonic()
        try:
            checks(self)
        except Exception as error:
            self.faults.append(f"the check itself ended with {type(error).__name__}: {error}")
        self.seconds = time.monotonic() - start

    def path(self, name):
        return os.path.join(self.room, name)

    def put(self, name, data):
        """Writes a file of the group's folder, and returns its path."""
        path = self.path(name)
        with open(path, "wb") as file:
            file.write(data)
        return path

    def call(self, *words, program=None, **how):
        """Calls the program with these words, in the group's folder if no other is given."""
        if Group.is_stopped:
            raise InterruptedError("all checks were stopped")
        command = [program or self.program, *words]
        settings = {"stdin": subprocess.DEVNULL, "stdout": subprocess.PIPE, "stderr": subprocess.PIPE}
        settings["cwd"] = self.room
        if "input" in how:
            del settings["stdin"]
        try:
            ran = subprocess.run(command, timeout=LIMIT, check=False, **{**settings, **how})
        except subprocess.TimeoutExpired:
            return Answer(None, b"", b"no end after %d seconds" % LIMIT)
        return Answer(ran.returncode, ran.stdout or b"", ran.stderr or b"")

    def is_sanitized(self):
        """Whether the program is built with AddressSanitizer, which takes memory and ends in ways of its own."""
        return b"__asan_init" in contents(self.program)

    def expect(self, is_well, what, answer=None):
        """Counts a check, and keeps what was seen if it failed."""
        if is_well:
            self.passed += 1
        else:
            self.faults.append(what + (f": {shown(answer)}" if answer else ""))
        return is_well

    def done(self, *words, what=None, **how):
        """The bytes that a call prints, which must end with status 0 and without a line of error."""
        answer = self.call(*words, **how)
        self.expect(answer.status == 0 and not answer.err, what or f"{called(words)} ends with status 0", answer)
        return answer.out

    def prints(self, words, data, what):
        """Checks that a call ends with status 0, prints exactly these bytes, and has no line of error."""
        answer = self.call(*words)
        self.expect(answer == Answer(0, data, b""), what, answer)

    def refused(self, words, status, line, what=None, **how):
        """Checks that a call ends with this status and exactly this line, and prints nothing."""
        answer = self.call(*words, **how)
        is_well = answer == Answer(status, b"", line.encode() + b"\n")
        what = what or called(words)
        self.expect(is_well, f"{what} is refused with status {status}, `{line}`", answer)


def called(words):
    return "r3 " + " ".join(os.path.basename(word) or "''" for word in words)


def shown(answer):
    line = answer.err.decode(errors="backslashreplace").strip()
    return f"status {answer.status}, {len(answer.out)} bytes printed, `{line[:200]}` on standard error"
