"""The set of tests/data/made as it is stored: its images, its tables, and one table written or compared."""
import collections
import pathlib
import sys

FOLDER = pathlib.Path(__file__).resolve().parents[1] / 'data' / 'made'

Place = collections.namedtuple('Place', 'image day place kind flags file')


def rows(name):
    """The rows of a table without its heading."""
    return [line.split('\t') for line in (FOLDER / name).read_text().splitlines()[1:]]


def images():
    """For each image its places in order."""
    found = collections.defaultdict(list)
    for image, day, place, kind, flags, file in rows('places.tsv'):
        found[image].append(Place(image, int(day), int(place), int(kind), int(flags), file))
    return found


def octets(file):
    return (FOLDER / file).read_bytes()


def store(words, name, text, usage):
    """Writes a table, or with --check says whether the stored one is the same."""
    path = FOLDER / name
    if words == ['--check']:
        if not path.exists() or path.read_text() != text:
            sys.exit('%s is not what is found now' % name)
        print('%s: as found now' % name)
    elif not words:
        path.write_text(text)
        print('%s written' % name)
    else:
        sys.exit(usage)
