"""Finds the program calyx_cli, and runs it."""
import os
import shutil
import subprocess
import sys
import tempfile

TOP = os.path.abspath(os.path.join(os.path.dirname(os.path.abspath(__file__)), '..'))
BUILT = os.path.join(TOP, 'crates', 'calyx_cli', 'out', 'calyx_cli')
ENDS = {0: 'ended', 1: 'the words are none of a command', 2: 'refused', 3: 'needs more turns', 4: 'a fault', 5: 'a file could not be read', 6: 'the answer could not be written',
        7: 'an allocation was refused', 8: 'the system refused the arguments'}


def path():
    """The program that CALYX_CLI names, else that on the path, else what the gate left, else that of tools/quick in `out/` of this repository."""
    quick = os.path.join(TOP, 'out', 'calyx_cli.unproved')
    found = os.environ.get('CALYX_CLI') or shutil.which('calyx_cli') or next((it for it in (BUILT, quick) if os.path.exists(it)), None)
    if not found or not (os.path.exists(found) or shutil.which(found)):
        sys.exit('there is no program calyx_cli: build one with `tools/quick out` (minutes, not proved) or `bash .ci/run` (proved), or name it in CALYX_CLI')
    return os.path.abspath(found) if os.path.exists(found) else found


def run(*words):
    """The status, the output and the lines on standard error of a command."""
    ran = subprocess.run([path(), *words], stdin=subprocess.DEVNULL, capture_output=True, check=False)
    return ran.returncode, ran.stdout, ran.stderr.decode('utf-8', 'replace')


def compiled(text):
    """The Verilog of a design that is given as a text, and the line that is told where there is none."""
    with tempfile.TemporaryDirectory(prefix='calyx_') as folder:
        with open(f'{folder}/d.futil', 'wb') as to:
            to.write(text.encode('latin-1'))
        status, out, told = run('compile', f'{folder}/d.futil')
    return (out.decode(), '') if status == 0 else (None, told.strip())
