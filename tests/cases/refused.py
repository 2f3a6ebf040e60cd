"""A refusal of the rules paper, by its number and detail."""


class Refused(Exception):
    def __init__(self, number, detail=0):
        super().__init__(number, detail)
        self.number = number
        self.detail = detail

    def words(self):
        text = 'refused %d' % self.number
        if self.number in (2, 3):
            return text + ' at %d' % self.detail
        if self.number in (4, 5):
            return text + ', rule %d' % self.detail
        return text
