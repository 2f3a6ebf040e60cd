"""The tree of an item that passes the walk."""
import re

from oracle_der import heading, walk


class Element:
    def __init__(self, item, at, end):
        self.tag, self.start, self.end = heading(item, at, end)
        self.item = item
        self.at = at
        self.members = []
        if self.tag & 0x20:
            inner = self.start
            while inner < self.end:
                self.members.append(Element(item, inner, self.end))
                inner = self.members[-1].end

    def whole(self):
        return self.item[self.at:self.end]

    def parts(self):
        return [member.whole() for member in self.members]

    def contents(self):
        return self.item[self.start:self.end]

    def holds(self, pattern):
        """Whether the tags of all members, one after the other, are of a pattern."""
        return re.fullmatch(pattern, bytes(member.tag for member in self.members), re.DOTALL) is not None


def tree(item):
    walk(item)
    return Element(item, 0, len(item))
