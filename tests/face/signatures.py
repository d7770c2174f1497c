"""What each exported function takes and answers, in C's types: as the crates' sources mean it, and as include/halviruso.h declares it."""
import re

from face import Unread, libraries, past, tokens
from rattle import content, paths

NUMBERS = {'u8': 'uint8_t', 'u16': 'uint16_t', 'u32': 'uint32_t', 'u64': 'uint64_t'}
DECLARED = re.compile(r'(\w+) (halviruso_\w+)\(([^)]*)\);')


def c_type(word):
    """A number by its width, a structure by its name."""
    if word not in NUMBERS and not word[0].isupper():
        raise Unread(f'{word}, a type that C is not told of')
    return NUMBERS.get(word, f'halviruso_{word.lower()}')


def lent(words):
    """A parameter's type in C: a slice is a pointer and a length, what is lent to be read is const."""
    const = '' if words[1:2] == ['mut'] else 'const '
    inside = [word for word in words if word not in {'&', 'mut', '[', ']'}]
    if len(inside) != 1:
        raise Unread(' '.join(words))
    if words[0] != '&':
        return [c_type(inside[0])]
    return [f'{const}{c_type(inside[0])} *', *(['size_t'] if '[' in words else [])]


def parameters(words):
    """The C types of the parameters in these words, `name: type` with commas between."""
    types, at = [], 0
    while at < len(words):
        end = words.index(',', at) if ',' in words[at:] else len(words)
        types += lent(words[at + 2:end])
        at = end + 1
    return types


def exported(text):
    """The exported functions of a source: by name, what it answers and what it takes."""
    words, found = tokens(text), {}
    for at in range(len(words) - 2):
        if words[at:at + 2] == ['"C"', 'fn']:
            end = past(words, at + 3)
            if words[end:end + 2] != ['-', '>']:
                raise Unread(f'{words[at + 2]}, which answers nothing')
            found[words[at + 2]] = [c_type(words[end + 2]), *parameters(words[at + 4:end - 1])]
    return found


def of_sources():
    every = [content(path) for crate in libraries() for path in paths(crate, 'src', '.rt')]
    return {name: types for text in every for name, types in exported(text).items()}


def declared(text):
    """The same of a header: each parameter without its name."""
    found = {}
    for answer, name, given in DECLARED.findall(re.sub(r'/\*.*?\*/', '', text, flags=re.DOTALL)):
        each = [' '.join(one.split()) for one in given.split(',')]
        found[name] = [answer, *(re.sub(r'\w+$', '', one).strip() for one in each if one != 'void')]
    return found


def of_header():
    return declared(content('include/halviruso.h'))
