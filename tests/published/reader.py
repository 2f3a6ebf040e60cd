"""The readers that the library is compared with: the Python package cryptography and the command openssl."""
import importlib.metadata
import shutil
import sys

# the first version that tells times with their zone and the parameters of PSS
OLDEST = 42


def installed(command):
    try:
        version = importlib.metadata.version('cryptography')
    except importlib.metadata.PackageNotFoundError:
        return False
    return int(version.split('.')[0]) >= OLDEST and (not command or shutil.which('openssl') is not None)


def needed(words, command=False):
    """Goes on where the readers are installed. Where not, --check ends well and says that nothing was compared."""
    if installed(command):
        return
    if words == ['--check']:
        print('no reader here, not compared')
        sys.exit(0)
    sys.exit('the Python package cryptography, version %d or later%s, must be installed' % (
        OLDEST, ', and the command openssl' if command else ''))
