"""Why nothing stands on a sheet."""
from ptoca.words import plural


def of_part(shown):
    count = shown.end['elements']
    if count == 0:
        return 'The part is empty: it has no element.'
    none = 'The one element leaves no record.' if count == 1 else f'None of the {count:,} elements leaves a record.'
    return f'{none} Moves and settings leave none, nor do text and rules that are suppressed, text of no characters and rules with no ink.'


def of_job(shown):
    end = shown.end
    if shown.key == 0 and not shown.open:
        return 'No job has been opened here yet.'
    if end['used'] > 0:
        return f'No whole record stands at the start of the {plural(end["used"], "record byte")}.'
    if end['taken'] > 0:
        return f'The printer has taken all that the job placed, {plural(end["taken"], "record byte")}.'
    if end['next'] == 1:
        return 'No part of the job is placed yet.' if shown.open else 'The job was closed before a part was placed.'
    return 'No part of the job has left a record.'


def why_empty(shown):
    """A sentence; None where something stands there."""
    if shown.items:
        return None
    if shown.refused is not None:
        return 'A refused part places nothing.'
    return of_part(shown) if shown.part is not None else of_job(shown)
