"""Builds the archive of a crate and C programs over it: for the scripts of tests/ and bench/."""
import os
import subprocess

ROOT = os.path.dirname(os.path.dirname(os.path.abspath(__file__)))

# reference.py (what document 01 says, computed), gen.py (random cases) and flows.py (flow lines)
REFERENCE = os.path.join(ROOT, 'tests', 'reference')


def archive(crate):
    """The archive that `tools/archive.sh` writes."""
    subprocess.run([os.path.join(ROOT, 'tools', 'archive.sh'), crate], check=True, stdout=subprocess.DEVNULL)
    return os.path.join(ROOT, 'target', 'staticlib', 'lib%s.a' % crate)


def program(folder, name, directory, *words):
    """The program of FOLDER/NAME.c, in a directory; words go to the compiler: archives, flags."""
    made = os.path.join(directory, name)
    subprocess.run([os.environ.get('CC', 'cc'), '-std=gnu99', '-O2', '-Wall', '-Wextra', '-Werror', '-I', os.path.join(ROOT, 'include'),
                    os.path.join(ROOT, folder, name + '.c'), *words, '-o', made], check=True)
    return made
