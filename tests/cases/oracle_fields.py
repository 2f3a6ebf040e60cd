"""What certificates and CRLs have in common, from the rules paper: names, times, extensions."""
import re

from oracle_days import ALL_YEARS, real_moment

SEQUENCE, SET, PRINTABLE, UTC_TIME = 0x30, 0x31, 0x13, 0x17
COUNTRY_NAME = bytes.fromhex('55 04 06')
AUTHORITY_KEY = bytes.fromhex('55 1D 23')
TRUE = b'\xff'


def name_shape(name):
    """SETs that are not empty, of SEQUENCEs of an OBJECT IDENTIFIER and one element."""
    return name.tag == SEQUENCE and name.holds(rb'\x31*') and all(
        group.holds(rb'\x30+') and all(pair.holds(rb'\x06.') for pair in group.members) for group in name.members)


def country(name):
    """The two letters of a name, or None where the rule on them is broken."""
    values = [pair.members[1] for group in name.members for pair in group.members
              if pair.members[0].contents() == COUNTRY_NAME]
    if [value.tag for value in values] != [PRINTABLE]:
        return None
    letters = values[0].contents()
    return letters.decode('ascii') if re.fullmatch(rb'[A-Z][A-Z]', letters) else None


def moment(time):
    """The number YYYYMMDDHHMMSS of a time, or None where the rule on times is broken."""
    text = time.contents()
    if time.tag == UTC_TIME:
        if not re.fullmatch(rb'[0-9]{12}Z', text):
            return None
        number = int(text[:-1])
        number += (2000 if number // 10 ** 10 <= 49 else 1900) * 10 ** 10
    else:
        if not re.fullmatch(rb'[0-9]{14}Z', text) or int(text[:4]) < 2050:
            return None
        number = int(text[:-1])
    return number if real_moment(number, ALL_YEARS) else None


class Extension:
    def __init__(self, member):
        self.name = member.members[0].contents()
        self.critical = len(member.members) == 3
        self.value = member.members[-1]


def extension_shape(member):
    """An OBJECT IDENTIFIER, TRUE or nothing, an OCTET STRING."""
    if not member.holds(rb'\x06\x01?\x04'):
        return False
    return len(member.members) == 2 or member.members[1].contents() == TRUE


def list_shape(extensions):
    return extensions.tag == SEQUENCE and extensions.holds(rb'\x30*') and all(map(extension_shape, extensions.members))


def read_list(extensions):
    return [Extension(member) for member in extensions.members]


def doubled(extensions):
    return len({extension.name for extension in extensions}) != len(extensions)


def tbs_of(outermost, tags):
    """The first of SEQUENCE, SEQUENCE and BIT STRING in a SEQUENCE, if its members have these tags; else None."""
    if outermost.tag != SEQUENCE or not outermost.holds(rb'\x30\x30\x03'):
        return None
    tbs = outermost.members[0]
    return tbs if tbs.holds(tags) else None
