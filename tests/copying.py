"""A copy of what a crate needs of the repository, for scripts that add to it: crates.txt, and the folders of crates/."""
import os
import shutil

ROOT = os.path.dirname(os.path.dirname(os.path.abspath(__file__)))


def used(crate):
    """The crates below one and itself, lowest first, by crates.txt."""
    lines = [l.split('#')[0].split(':') for l in open(os.path.join(ROOT, 'crates.txt'), encoding='utf-8')]
    uses = {l[0].split()[0]: l[1].split() for l in lines if len(l) == 2}
    below = []

    def add(name):
        for u in uses[name]:
            if u not in below:
                add(u)
        below.append(name)

    add(crate)
    return below


def copied(crate, folder, line):
    """Copies what a crate needs to a folder, with a line for a crate in the place of the one that it has, or at the end."""
    needed = used(crate)
    others = set(os.listdir(os.path.join(ROOT, 'crates'))) - set(needed)

    def unneeded(_, names):
        return [n for n in names if n.split('.')[0] in others or n == 'out']

    shutil.copytree(os.path.join(ROOT, 'crates'), os.path.join(folder, 'crates'), symlinks=True, ignore=unneeded)
    kept = []
    for l in open(os.path.join(ROOT, 'crates.txt'), encoding='utf-8').read().split('\n'):
        name = l.split(':')[0].split()[0] if ':' in l.split('#')[0] else None
        if name is None or (name in needed and name != line.split(':')[0].split()[0]):
            kept.append(l)
    with open(os.path.join(folder, 'crates.txt'), 'w', encoding='utf-8') as f:
        f.write('\n'.join(kept + [line, '']))
