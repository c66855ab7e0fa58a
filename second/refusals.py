"""What every part of the second program answers when it does not accept."""


class Refused(Exception):
    """A refusal: its number and the two values that it returns."""

    def __init__(self, number, first, second=0):
        super().__init__(number, first, second)
        self.number = number
        self.first = first
        self.second = second
