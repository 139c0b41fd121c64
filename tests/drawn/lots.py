"""What all of tests/drawn draws by."""

import random


class Lots(random.Random):
    """Lots by a seed: one version of Python draws the same for the same word."""

    def chance(self, share):
        return self.random() < share

    def weighted(self, table):
        """One of the keys of a table, by their weights."""
        return self.choices(list(table), list(table.values()))[0]

    def shuffled(self, items):
        return self.sample(items, len(items))
