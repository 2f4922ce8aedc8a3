"""Copies of crates, for what is proved or built beside the repository."""
import os, shutil

TOP = os.path.dirname(os.path.dirname(os.path.abspath(__file__)))


def lines_of_crates():
    """The lines of crates.txt, by the crate that they name."""
    with open(os.path.join(TOP, 'crates.txt')) as file:
        lines = [line for line in file if ':' in line and not line.startswith('#')]
    return {line.split(':')[0].split()[0]: line for line in lines}


def with_those_below(names, lines):
    """The crates, those that they use, and so on down."""
    found, left = set(), list(names)
    while left:
        name = left.pop()
        if name not in found:
            found.add(name)
            left.extend(low for low in lines[name].split(':')[1].split() if low in lines)
    return found


def copy_crates(names, folder):
    """Copies the crates and those below them, with what earlier checks stored of them, into a folder of their own."""
    lines = lines_of_crates()
    wanted = with_those_below(names, lines)
    needed = [name for name in lines if name in wanted]
    for name in needed:
        crate = os.path.join('crates', name)
        shutil.copytree(os.path.join(TOP, crate), os.path.join(folder, crate), symlinks=True)
    with open(os.path.join(folder, 'crates.txt'), 'w') as file:
        file.writelines(lines[name] for name in needed)
    shutil.copy(os.path.join(TOP, 'HANDLES'), folder)
