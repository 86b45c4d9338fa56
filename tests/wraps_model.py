#!/usr/bin/env python3
"""wraps_model.py: what crates/test_wraps must write, by document 01 (Sleep scan), with nothing of the Rattle code.

    python3 tests/wraps_model.py > crates/test_wraps/stdout

Two live islands, 0 and 1, awake, of one body each and with count 0, so that an island is listed exactly if all its observations
were eligible.
"""

FIRST, STAMPS = 4294967279, 38


class Yard:
    def __init__(self, stamp):
        print("from", stamp)
        self.stamp, self.waiting = 0, None
        # reset, two bodies put, two ensured
        for _ in range(5):
            self.say(0)
        self.stamp = stamp

    def say(self, *words):
        print(*words)
        print("stamp", self.stamp)

    def begin(self):
        self.stamp = (self.stamp + 1) % 2**32
        self.waiting = {}
        self.say(0)

    def observe(self, island, eligible):
        if island > 1:
            self.say(6)
        elif self.waiting is None:
            self.say(7)
        else:
            # a dict keeps the order of first observation
            self.waiting[island] = self.waiting.get(island, True) and eligible
            self.say(0)

    def finish(self, room=4096):
        if self.waiting is None:
            self.say(7, 0)
            return
        listed = [island for island, eligible in self.waiting.items() if eligible]
        if len(listed) > room:
            self.say(8, 0)
            return
        self.waiting = None
        self.say(0, len(listed), *listed)


for k in range(STAMPS):
    yard = Yard((FIRST + k) % 2**32)
    yard.observe(0, True)
    yard.begin()
    yard.observe(1, True)
    yard.observe(0, True)
    yard.observe(2, True)
    yard.finish(1)
    yard.finish()
    yard.finish()
    yard.begin()
    yard.observe(1, True)
    yard.observe(0, True)
    yard.observe(1, False)
    yard.finish()

yard = Yard(FIRST)
for k in range(STAMPS):
    yard.begin()
    yard.observe(0, True)
    yard.finish()
