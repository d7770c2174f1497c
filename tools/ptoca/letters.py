"""Bytes as the letters of a code page."""
import unicodedata

CODE_PAGES = {'500': 'cp500', '1252': 'cp1252'}


def letter(byte, code_page):
    """The character that a byte shows; None where it has no form: a control code, or none at all."""
    try:
        shown = bytes([byte]).decode(CODE_PAGES[code_page])
    except UnicodeDecodeError:
        return None
    return None if unicodedata.category(shown).startswith('C') else shown


def line(data, code_page):
    """Bytes as one line of text, in quotes; a byte without a form as \\xHH."""
    shown = []
    for byte in data:
        char = letter(byte, code_page)
        if char is None:
            shown.append(f'\\x{byte:02X}')
        else:
            shown.append('\\' + char if char in '\\"' else char)
    return '"' + ''.join(shown) + '"'
