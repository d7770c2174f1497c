"""A folder of numbered files, put in its place whole or not at all."""
import os
import shutil
import tempfile

from ptoca.files import telling
from ptoca.words import Wrong

MOST = 65535  # part numbers of a job


def name_of(number):
    """The names stand in the order of the numbers."""
    return f'{number:05}.part'


def put(path, contents):
    """A new folder, or one that was empty."""
    if len(contents) > MOST:
        raise Wrong(f'{path}: {len(contents):,} pieces, and a job takes {MOST:,}')
    with telling(path or "''"):
        whole = os.path.abspath(path) if path else ''
        made = tempfile.mkdtemp(dir=os.path.dirname(whole))
        try:
            fill(made, contents)
            os.rename(made, whole)  # over an empty folder, and over nothing else
        except BaseException:
            shutil.rmtree(made)
            raise


def fill(folder, contents):
    for number, raw in enumerate(contents, 1):
        with open(os.path.join(folder, name_of(number)), 'wb') as file:
            file.write(raw)
    mask = os.umask(0)
    os.umask(mask)
    os.chmod(folder, 0o777 & ~mask)
