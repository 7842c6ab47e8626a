"""Memory models, clocks, and what both ask of two records (docs/RULES.md)."""

from typing import Callable, NamedTuple

from .records import FENCE, LOAD


class Model(NamedTuple):
    word: str
    mark: int
    orders: Callable    # of the kinds of an earlier and a later record of one processor


class Clock(NamedTuple):
    word: str
    mark: int
    earlier: Callable    # of two readings: is the one surely earlier than the other


SC = Model("SC", 1, lambda earlier, later: True)
GODSON = Model("Godson", 3, lambda earlier, later: later != LOAD or earlier == FENCE)
GLOBAL = Clock("Global", 1, lambda one, other: one < other)
NONE = Clock("None", 3, lambda one, other: False)


class Setting(NamedTuple):
    """The model and the clock that a run is judged under."""
    model: Model
    clock: Clock

    def clock_orders(self, records, first, second):
        """Whether the clock puts record `first` before record `second`."""
        return self.clock.earlier(records[first - 1].commit, records[second - 1].enter)

    def model_orders(self, records, first, second):
        """Whether the model puts record `first` before record `second`."""
        one, other = records[first - 1], records[second - 1]
        return one.processor == other.processor and first < second and self.model.orders(one.kind, other.kind)

    def orders(self, records, first, second):
        return self.clock_orders(records, first, second) or self.model_orders(records, first, second)


SETTINGS = tuple(Setting(model, clock) for model in (SC, GODSON) for clock in (GLOBAL, NONE))
