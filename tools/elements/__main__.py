"""python3 tools/elements PART [--after PART]... [--increment N] [--widths FILE] [--codepage 500|1252] [--library FILE] [--run COMMAND]

Prints a part as its elements, one a line: offset, TYPE, PTOCA's name, the values, and what the element placed or moved. What
is accepted, placed or refused is what the library answers, and the part as a whole must get the same answer. The sheet is that of
the listing programs, at the increment N, 180 without it. Below a refusal stand the bytes around it: ^^ under the one that it names,
-- under the others of its element, .. where more of them follow. What the parts of `--after` placed has been taken: the part has the area to itself.
The library is a shared one (.so), or a host program of it, as `make elements` builds; `--run` is the emulator for that, if it needs one.
Exit status 0: shown, a refused part too. 1: shown, and the library disagrees with itself. 2: it can't be done; one line on
standard error says why, and nothing is printed."""
import os
import sys

# tools/ in place of tools/elements: the modules below are named from there
sys.path[0] = os.path.dirname(os.path.dirname(os.path.abspath(__file__)))

from elements.report import dump, ending, row
from library.options import add_options, first_state, library_of, sheet_of
from library.shapes import AREA
from library.walk import disagreements, protest, steps
from ptoca.command import Parser, run
from ptoca.files import read, say
from ptoca.letters import CODE_PAGES
from ptoca.refusals import refusal
from ptoca.words import Wrong, one_line, plural


def arguments():
    parser = Parser(prog='elements', description='Prints a part as its elements, by what the library answers.')
    parser.add_argument('part', help='a file with one part')
    add_options(parser)
    parser.add_argument('--codepage', choices=sorted(CODE_PAGES), default='500', help='how bytes are shown as letters')
    return parser.parse_args()


def arrived(library, given, widths, area, descriptor):
    """The state that the parts before leave, each of them taken by the printer."""
    state = first_state(library, given, descriptor)
    for path in given.after:
        answer, state = library.interpret(read(path), widths, area, descriptor, state.drained())
        if answer.code != 0:
            raise Wrong(f'{path}: {refusal(answer.code, answer.first)}')
    return state.drained()


def shown(library, given):
    """The exit status, and all that is printed."""
    part, (widths, descriptor), area = read(given.part), sheet_of(given), bytearray(AREA)
    start = arrived(library, given, widths, area, descriptor)
    whole_area = bytearray(area)
    whole, end = library.interpret(part, widths, whole_area, descriptor, start)
    head = f'{one_line(os.path.basename(given.part))}: {plural(len(part), "byte")}, baseline increment {descriptor.increment:,}'
    if 10 <= whole.code <= 19:
        return 0, [head, refusal(whole.code, whole.first)]
    walked = list(steps(library, part, widths, area, descriptor, start))
    rows = [head, *(row(step, given.codepage) for step in walked)]
    differences = disagreements(walked, start, (area, whole_area), whole, end)
    if differences:
        return 1, [*rows, *protest(differences)]
    if whole.code == 0:
        return 0, [*rows, ending(whole, end)]
    element = walked[-1].element
    return 0, [*rows, f'{refusal(whole.code, whole.first, element)}; nothing is placed', *dump(part, whole.first, element, given.codepage)]


def main():
    given = arguments()
    status, rows = shown(library_of(given), given)
    say('\n'.join([*rows, '']))
    return status


run('elements', main)
