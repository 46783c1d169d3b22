"""What the plotters of a recording say of where they go."""

from .messages import leg_of_page


class Plotter:
    """One plotter: the goal that it named last, and whether it ever had a bearing, and one of a goal that it named twice in a row."""

    __slots__ = ("goal", "is_usable", "is_followed")

    def __init__(self):
        self.goal, self.is_usable, self.is_followed = None, False, False


class Plotters:
    """Each device that says where it goes, by its address and NAME."""

    def __init__(self):
        self.leg, self.plotters = leg_of_page(), {}

    def take(self, who, data):
        """A whole message. A short one names no goal."""
        plotter = self.plotters.setdefault(who, Plotter())
        if len(data) < self.leg.least:
            return
        goal, is_usable = data[self.leg.goal], self.leg.is_usable(data)
        plotter.is_usable |= is_usable
        plotter.is_followed |= is_usable and goal == plotter.goal
        plotter.goal = goal

    def usable(self):
        """Those that had a route."""
        return {who for who, plotter in self.plotters.items() if plotter.is_usable}

    def followed(self):
        """Those whose navigation the gateway says, if it takes them: they had a route, and named a goal twice in a row."""
        return {who for who, plotter in self.plotters.items() if plotter.is_followed}
