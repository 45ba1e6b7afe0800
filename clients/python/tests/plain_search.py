"""Whether a small scheduling problem has any schedule at an interval that keeps its edges and its units: found by trying all rows and alternatives, in plain Python.

So what is said to rule an interval out can be tested. It takes no notice of registers, of stages or of what a scheduler would try first.
"""
import plain_problems as plain


def are_kept(problem, interval, rows):
    """Whether the operations in these rows can be put into stages such that each edge is kept: where no circuit of edges asks for more stages than it has iterations."""
    stages = [0] * len(rows)
    for _ in range(len(rows) + 1):
        before = list(stages)
        for one, other, distance, delay in plain.edges_of(problem):
            # (time is interval * stage + row)
            least = stages[one] - ((interval * distance - delay + rows[other] - rows[one]) // interval)
            stages[other] = max(stages[other], least)
        if stages == before:
            return True
    return False


def has_schedule(problem, interval):
    every = plain.alternatives_of(problem)

    def place(rows, taken):
        """Whether the operations after these can be placed, where these slots are taken."""
        if len(rows) == len(every):
            return are_kept(problem, interval, rows)
        for way in every[len(rows)]:
            for row in range(interval):
                slots = {*plain.slots(way, row, interval)}
                if len(slots) == len(way) and not slots & taken and place([*rows, row], slots | taken):
                    return True
        return False

    return place([], frozenset())
