"""The progress of a long run."""
import time


class Progress:
    """The steps of a run, of which some are done; `weights` has about how long each step takes, in any unit."""

    def __init__(self, weights):
        self.weights, self.begun = weights, time.monotonic()
        self.done = set()

    def count(self):
        """The number of steps that are done, and of all steps."""
        return f"{len(self.done)} of {len(self.weights)}"

    def times(self):
        """The minutes gone and, estimated by the weights, the minutes left."""
        gone = time.monotonic() - self.begun
        done, total = (sum(self.weights[step] for step in steps) for steps in (self.done, self.weights))
        left = gone * (total - done) / max(done, 1)
        return f"{gone / 60:.0f} min gone, about {left / 60:.0f} min left"
