"""python3 tools/cut PART... --output FOLDER [--after PART]... [--increment N] [--widths FILE] [--library FILE] [--run COMMAND]

Cuts the parts of a job, in their order, into pieces whose records fit one area of 4,096 bytes, when it is empty, and which are at most
8,192 bytes long, and writes them as FOLDER/00001.part, 00002.part and so on: sent in this order, with takes between them, they leave
the records that the parts would leave in an area without an end. A cut stands between two elements, in a chain too: an open chain goes on in
the next piece. A piece is as long as it can be, and never has bytes of two parts. Which elements there are and what fits is what the library
answers. The sheet, the library and `--after` are those of tools/elements; FOLDER must be new, or empty.
Exit status 0: cut. 1: the library disagrees with itself. 2: it can't be done, since a part is refused, one element is too much for a piece of its
own, or a file is at fault: one line on standard error says why. With 1 and 2 nothing is written."""
import os
import sys

# tools/ in place of tools/cut: the modules below are named from there
sys.path[0] = os.path.dirname(os.path.dirname(os.path.abspath(__file__)))

from cut.folder import name_of, put
from cut.pieces import Disagrees, Uncut, pieces
from library.options import add_options, first_state, library_of, sheet_of
from ptoca.command import Parser, run
from ptoca.files import read, say
from ptoca.words import Wrong, one_line, plural


def arguments():
    parser = Parser(prog='cut', description='Cuts the parts of a job into pieces that the area takes, by what the library answers.')
    parser.add_argument('parts', nargs='+', metavar='PART', help='a file with one part, of any length')
    parser.add_argument('--output', required=True, metavar='FOLDER', help='a folder for the pieces, new or empty')
    add_options(parser)
    return parser.parse_args()


def cut(library, paths, sheet, state):
    """The pieces of each file, and the state that the last one leaves."""
    made = []
    for path in paths:
        part = read(path)
        try:
            made.append(pieces(library, part, sheet, state))
        except Uncut as error:
            raise Wrong(f'{path}: {error}') from error
        state = made[-1][-1].end
    return made, state


def rows(paths, made, increment):
    """What was written, a line for each piece."""
    number = 0
    for path, found in zip(paths, made):
        size = sum(len(piece.raw) for piece in found)
        yield f'{one_line(os.path.basename(path))}: {plural(size, "byte")}, baseline increment {increment:,}'
        for piece in found:
            number += 1
            chain = ', chain open' if piece.end.chain else ''
            yield f'  {name_of(number)}  {piece.place()}: {plural(piece.answer.first, "element")}, {plural(piece.answer.second, "record byte")}{chain}'
    answers = [piece.answer for found in made for piece in found]
    totals = plural(sum(answer.first for answer in answers), 'element'), plural(sum(answer.second for answer in answers), 'record byte')
    yield f'{plural(number, "piece")}: {", ".join(totals)}'


def main():
    given = arguments()
    library, sheet = library_of(given), sheet_of(given)
    try:
        _, state = cut(library, given.after, sheet, first_state(library, given, sheet[1]))
        made, _ = cut(library, given.parts, sheet, state)
    except Disagrees as error:
        say('\n'.join([*error.args, 'nothing is written', '']))
        return 1
    put(given.output, [piece.raw for found in made for piece in found])
    say('\n'.join([*rows(given.parts, made, sheet[1].increment), '']))
    return 0


run('cut', main)
