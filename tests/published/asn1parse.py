"""An item as `openssl asn1parse` prints it: one row for each element."""
import collections
import re
import subprocess

LINE = re.compile(r'\s*(\d+):d=(\d+)\s+hl=(\d+)\s+l=\s*(\d+)\s+(?:cons|prim):\s+([^:]*?)\s*(?::(.*))?')

Row = collections.namedtuple('Row', 'at depth end type value')


class Printed:
    def __init__(self, octets):
        command = ['openssl', 'asn1parse', '-inform', 'DER']
        done = subprocess.run(command, input=octets, capture_output=True, check=False)
        if done.returncode:
            raise ValueError('openssl asn1parse refuses it')
        self.octets, self.rows = octets, []
        for line in done.stdout.decode('utf-8', 'replace').splitlines():
            found = LINE.fullmatch(line)
            if found:
                at, depth, header, length = map(int, found.groups()[:4])
                self.rows.append(Row(at, depth, at + header + length, found[5], found[6] or ''))

    def inside(self, row):
        """The rows of all elements in an element."""
        return [one for one in self.rows if row.at < one.at < row.end]

    def members(self, row):
        return [one for one in self.inside(row) if one.depth == row.depth + 1]

    def whole(self, row):
        return self.octets[row.at:row.end]

    def after(self, row, name):
        """The elements that follow each OBJECT IDENTIFIER of that name in an element."""
        rows = self.inside(row)
        return [second for first, second in zip(rows, rows[1:]) if first.type == 'OBJECT' and first.value == name]
