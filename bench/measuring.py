"""The command line of each script of bench/, and where the program is."""
import argparse
import os
import sys

TOP = os.path.dirname(os.path.dirname(os.path.abspath(__file__)))
PROGRAM = os.path.join(TOP, 'crates', 'hx_tape', 'out', 'hx_tape')
# What the scripts of both folders share stands in tests/.
sys.path.insert(0, os.path.join(TOP, 'tests'))


def asked(text, *more, program=PROGRAM, which='a built hx_tape (crates/hx_tape/out/hx_tape)'):
    """What the command line asks for: a program, whether a little is enough, and more of this script's own."""
    parser = argparse.ArgumentParser(description=text, formatter_class=argparse.RawDescriptionHelpFormatter)
    parser.add_argument('program', nargs='?', default=program, help=which)
    parser.add_argument('--small', action='store_true', help='a little of each, once: the figures say nothing')
    for name, words in more:
        parser.add_argument(name, **words)
    words = parser.parse_args()
    words.program = words.program and os.path.abspath(words.program)
    return words
