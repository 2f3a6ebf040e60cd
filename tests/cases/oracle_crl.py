"""A CRL by the rules paper: which rules it breaks, its fields, the serials that it lists, its age."""
import collections

import oracle_days
from oracle_certificate import times_hold, whole
from oracle_fields import AUTHORITY_KEY, country, doubled, list_shape, moment, name_shape, read_list, tbs_of
from oracle_tree import tree
from refused import Refused

NUMBER = bytes.fromhex('55 1D 14')

Fields = collections.namedtuple('Fields', 'this_update next_update letters entries issuer')


class Entry:
    def __init__(self, member):
        self.serial, self.time = member.members[:2]
        self.extensions = read_list(member.members[2]) if len(member.members) == 3 else []


class Crl:
    """The parts of an item that has the shape of a CRL."""

    def __init__(self, outermost):
        tbs, self.outer, self.signature = outermost.members
        self.version, self.inner, self.issuer, self.this_update, self.next_update, *listing, block = tbs.members
        self.empty_list = listing != [] and listing[0].members == []
        self.entries = [Entry(member) for member in listing[0].members] if listing else []
        self.extensions = read_list(block.members[0])


def entry_shape(member):
    return member.holds(rb'\x02[\x17\x18]\x30?') and (len(member.members) == 2 or list_shape(member.members[2]))


def has_shape(outermost):
    tbs = tbs_of(outermost, rb'\x02\x30\x30[\x17\x18][\x17\x18]\x30?\xa0')
    if tbs is None:
        return False
    block = tbs.members[-1]
    listing = tbs.members[5:-1]
    return (name_shape(tbs.members[2]) and block.holds(rb'\x30') and list_shape(block.members[0])
            and all(one.holds(rb'\x30*') and all(map(entry_shape, one.members)) for one in listing))


def broken_rules(item):
    """Every rule that is broken, the smallest first. What has not the shape of rule 1 has nothing more to judge."""
    outermost = tree(item)
    if not has_shape(outermost):
        return [1]
    one = Crl(outermost)
    names = [extension.name for extension in one.extensions]
    everything = one.extensions + [extension for entry in one.entries for extension in entry.extensions]
    keeps = {
        2: one.version.contents() == b'\1',
        3: one.inner.whole() == one.outer.whole(),
        4: country(one.issuer) is not None,
        5: (times_hold(one.this_update, one.next_update)
            and all(moment(entry.time) is not None for entry in one.entries)),
        6: not one.empty_list,
        7: not doubled(one.extensions) and AUTHORITY_KEY in names and NUMBER in names,
        8: not any(extension.critical for extension in everything),
    }
    return [rule for rule in sorted(keeps) if not keeps[rule]]


def passing(item):
    broken = broken_rules(item)
    if broken:
        raise Refused(4, broken[0])
    return Crl(tree(item))


def judge(item):
    """The fields of a CRL that keeps every rule."""
    one = passing(item)
    return Fields(moment(one.this_update), moment(one.next_update), country(one.issuer), len(one.entries),
                  whole(one.issuer))


def listed(item, serial):
    """Whether a CRL that keeps every rule has an entry for those contents octets."""
    return serial in [entry.serial.contents() for entry in passing(item).entries]


def age(item, day):
    """The days from the day of this update to a day."""
    if not oracle_days.real_day(day):
        raise Refused(1)
    return oracle_days.difference(judge(item).this_update // 1000000, day)
