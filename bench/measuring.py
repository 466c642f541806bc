"""How long the built program takes on an input, and how much memory it needs."""
import os
import subprocess
import tempfile

TOP = os.path.dirname(os.path.dirname(os.path.abspath(__file__)))
PROGRAM = os.path.join(TOP, 'crates', 'binast_tool', 'out', 'binast_tool')


class Run:
    """What one run of the program came to."""

    def __init__(self, status, line, seconds, peak):
        self.status, self.line, self.seconds, self.peak = status, line, seconds, peak


def run(program, words, path, output):
    """Runs the program on a file: its status, its line on standard error, processor seconds, and the peak of memory in MB."""
    with open(path, 'rb') as source, open(output, 'wb') as sink, tempfile.TemporaryFile() as notes:
        child = subprocess.Popen([program] + words, stdin=source, stdout=sink, stderr=notes)
        _, status, usage = os.wait4(child.pid, 0)
        child.returncode = os.waitstatus_to_exitcode(status)
        notes.seek(0)
        line = notes.read().decode('utf-8', 'replace')
    return Run(child.returncode, line, usage.ru_utime + usage.ru_stime, usage.ru_maxrss / 1024)
