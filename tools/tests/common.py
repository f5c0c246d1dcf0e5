"""What the tests of the tools share: where they find the tools and the examples, and how they run one."""
import os
import subprocess
import sys
import tempfile

TOOLS = os.path.dirname(os.path.dirname(os.path.abspath(__file__)))
TOP = os.path.dirname(TOOLS)
EXAMPLES = os.path.join(TOP, 'examples')
sys.dont_write_bytecode = True
sys.path.insert(0, TOOLS)


def text_of(*path):
    with open(os.path.join(TOP, *path), 'rb') as file:
        return file.read().decode('latin-1')


def example(name):
    return text_of('examples', name)


def calyx(*words, folder=None):
    """The status, the output and the lines on standard error of tools/calyx."""
    ran = subprocess.run([sys.executable, os.path.join(TOOLS, 'calyx'), *words], cwd=folder, capture_output=True, check=False)
    return ran.returncode, ran.stdout.decode('utf-8', 'replace'), ran.stderr.decode('utf-8', 'replace')


class Folder:
    """A folder with files, for one test."""

    def __init__(self, **files):
        self.files = files

    def __enter__(self):
        self.room = tempfile.TemporaryDirectory(prefix='calyx_test_')
        for name, text in self.files.items():
            with open(os.path.join(self.room.name, name.replace('__', '.')), 'wb') as file:
                file.write(text.encode('latin-1'))
        return self.room.name

    def __exit__(self, *_):
        self.room.cleanup()
