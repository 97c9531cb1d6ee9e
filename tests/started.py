"""How the tests start a proved program."""
import os
import subprocess
import sys

ROOT = os.path.dirname(os.path.dirname(os.path.abspath(__file__)))


def started(program):
    """The words that start a proved program, which is built first if it is missing, or older than what it is made of."""
    if subprocess.run([os.path.join(ROOT, 'quernhem'), 'build', program]).returncode:
        sys.exit(f'tests: {program} was not built')
    return [os.path.join(ROOT, 'crates', program, 'out', program)]
