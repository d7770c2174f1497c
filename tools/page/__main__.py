"""python3 tools/page [LISTING] [--increment N] [--part FILE] [--widths FILE] [--codepage 500|1252] [--sheet N] [--output FILE]

Draws a listing, or a job that replay or examples/drain.c showed, as SVG. Without LISTING it reads standard input. `--increment` is the one that the listing
was made at: it goes into the caption, for the listing doesn't tell it; a job does. `--part` is the part itself: its name goes
into the caption, and a refusal is marked on its bytes. `--sheet` chooses among several sheets in one text.
Exit status 0: drawn. 2: it can't be done; one line on standard error says why, and an earlier file stays as it was."""
import os
import sys

# tools/ in place of tools/page: the modules below are named from there
sys.path[0] = os.path.dirname(os.path.dirname(os.path.abspath(__file__)))

from page.listing import LONGEST, sheets
from page.picture import picture
from ptoca.command import Parser, run
from ptoca.files import lines, read, write
from ptoca.letters import CODE_PAGES
from ptoca.sheet import given_increment
from ptoca.widths import read as read_widths
from ptoca.words import Wrong, named, plural


def arguments():
    parser = Parser(prog='page', description='Draws a listing, or a job shown by replay, as SVG.')
    parser.add_argument('listing', nargs='?', help='a file with the listing; standard input without it')
    parser.add_argument('--increment', help='the baseline increment that the listing was made at, for the caption')
    parser.add_argument('--part', help="the part's bytes, for its name and to mark a refusal on them")
    parser.add_argument('--widths', help='1,024 numbers; every width 144 without it')
    parser.add_argument('--codepage', choices=sorted(CODE_PAGES), default='500', help='how bytes are shown as letters')
    parser.add_argument('--sheet', type=int, default=1, help='which sheet of the text, from 1')
    parser.add_argument('--output', help='a file for the picture; standard output without it')
    return parser.parse_args()


def chosen(path, wanted):
    """The sheet that is asked for, of a text."""
    rows = lines(path)
    try:
        found = sheets(rows)
    except Wrong as error:
        raise Wrong(f'{named(path)}: {error}') from error
    if not 1 <= wanted <= len(found):
        raise Wrong(f'{named(path)}: {plural(len(found), "sheet")} in this text, and number {wanted:,} was asked for')
    return found[wanted - 1]


def told(shown, increment):
    """The sheet with the increment that its listing was made at."""
    if shown.key is not None:
        raise Wrong('--increment: a job tells its own')
    shown.descriptor['increment'] = given_increment(increment)


def part_of(shown, path):
    """The part's bytes, which must be as many as the listing says."""
    part = read(path)
    if shown.part is not None and min(len(part), LONGEST + 1) != shown.part:
        raise Wrong(f'{path}: {plural(len(part), "byte")}, and the listing is of a part of {shown.part:,}')
    return part


def main():
    given = arguments()
    shown = chosen(given.listing, given.sheet)
    if given.increment is not None:
        told(shown, given.increment)
    part = None if given.part is None else part_of(shown, given.part)
    name = None if given.part is None else os.path.basename(given.part)
    svg = picture(shown, read_widths(given.widths), given.codepage, name, part)
    write(svg.encode('utf-8'), given.output)
    return 0


run('page', main)
