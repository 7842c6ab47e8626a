"""Refusals: a number, a layer and a place (docs/REFUSALS.md)."""

MALFORMED, FOREIGN, DECIDED, SEALED, UNSEALED, FULL, STRANGER, KIND, BLANK = range(1, 10)
RANGE, BACKWARD, TWIN, SPENT, BARE, SHORT, UNFOUNDED, HOLLOW = range(10, 18)

WORDS = dict(enumerate((
    "Malformed", "Foreign", "Decided", "Sealed", "Unsealed", "Full", "Stranger", "Kind", "Blank",
    "Range", "Backward", "Twin", "Spent", "Bare", "Short", "Unfounded", "Hollow"), 1))

# the layers
RUN_BYTES, CONTENT, PAPER_BYTES, LINES = 1, 2, 3, 4


class Fault(Exception):
    """A refusal of a call, with nothing changed unless the call says so."""

    def __init__(self, number, layer, place):
        super().__init__(number, layer, place)
        self.number, self.layer, self.place = number, layer, place

    def __str__(self):
        return f"{self.number} {WORDS[self.number]} layer {self.layer} place {self.place}"
