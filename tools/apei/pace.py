"""How long a build takes: what is told before it begins, and how that is corrected by what has passed."""

import math
import os
from dataclasses import dataclass
from typing import Optional

# What part of the lines has to be proved before the time so far says how long is left.
SAYS = 0.1


def in_minutes(minutes: int) -> str:
    return "1 minute" if minutes == 1 else f"{minutes} minutes"


def beside_others() -> float:
    """How many times as long a proof takes as on an idle machine, since what runs already takes its part of the processors."""
    processors = len(os.sched_getaffinity(0))
    return max(1.0, (processors + os.getloadavg()[0]) / processors)


@dataclass(frozen=True)
class Pace:
    """The least and the most minutes of a build that an idle machine takes, and how many times as many this one takes."""

    least: float
    most: float
    times: float

    def told(self) -> str:
        """What is said before the build begins."""
        least, most = math.ceil(self.least * self.times), math.ceil(self.most * self.times)
        about = in_minutes(most) if least == most else f"{least} to {in_minutes(most)}"
        # Less than half as much again is within what is told.
        return f"about {about}" + (", since other work takes a part of the processors" if self.times >= 1.5 else "")

    def left(self, part: float, passed: float) -> Optional[int]:
        """The minutes that are left, if this part of the lines is proved and N have passed.

        As long as too little is proved, they are what is left of those that were told. If all of these have passed, as many again."""
        if part >= 1:
            return None
        if part >= SAYS:
            return math.ceil(passed * (1 - part) / part)
        told = self.most * self.times
        return math.ceil(told - passed if passed < told else passed)

    def is_late(self, passed: float) -> bool:
        """Whether more has passed than was told."""
        return passed > math.ceil(self.most * self.times)
