"""Which references to tracks miss, for 1 to 64 places of the store, and the cheapest plan of transfers.

A reference misses where its track isn't among the most recent different tracks, as many as there are places."""
import heapq

# A plan is made for at most so many changes of the track.
MOST_CHANGES = 1000000
PLACES = 64


class Recent:
    """Counts misses for 1 to 64 places at once.

    `stack` has the 64 most recent different tracks, the newest first. The
    index of a track there is the number of different tracks strictly between
    this reference and its last earlier one."""

    def __init__(self, places=None, keep_changes=False):
        self.stack = []
        self.cold = 0                        # misses for every number of places
        self.between = [0] * PLACES
        self.places = places
        self.missed = [] if places else None     # tracks at the misses, for `places`
        self.changes = [] if keep_changes else None
        self.change_count = 0

    def change(self, track):
        """A reference whose track differs from the one before."""
        self.change_count += 1
        if self.changes is not None and self.change_count <= MOST_CHANGES:
            self.changes.append(track)
        stack = self.stack
        try:
            at = stack.index(track)
        except ValueError:
            at = PLACES
            self.cold += 1
            if len(stack) == PLACES:
                stack.pop()
        else:
            self.between[at] += 1
            del stack[at]
        stack.insert(0, track)
        if self.missed is not None and at >= self.places:
            self.missed.append(track)

    def misses(self, places):
        return self.cold + sum(self.between[places:])

    def table(self):
        return [self.misses(p) for p in range(1, PLACES + 1)]


def misses(tracks, places):
    """The list of tracks at the misses."""
    recent, last = Recent(places), None
    for t in tracks:
        if t != last:
            recent.change(t)
            last = t
    return recent.missed


def misses_by_definition(tracks, places):
    """The same by the definition itself; for tests."""
    out = []
    for i, t in enumerate(tracks):
        earlier = [j for j in range(i) if tracks[j] == t]
        if not earlier or len(set(tracks[earlier[-1] + 1:i])) >= places:
            out.append(t)
    return out


def farthest(tracks, places):
    """The cheapest plan, a list of (track, place from 1) for each transfer: the track that is needed latest is given up."""
    never = len(tracks)
    following = [never] * len(tracks)
    last = {}
    for i in range(len(tracks) - 1, -1, -1):
        following[i] = last.get(tracks[i], never)
        last[tracks[i]] = i
    holds = []                     # track of each place
    where = {}
    due = []                       # next occurrence of the track of each place
    heap = []                      # (-due, place), with old entries left in
    plan = []
    for i, t in enumerate(tracks):
        place = where.get(t)
        if place is None:
            if len(holds) < places:
                place = len(holds)
                holds.append(t)
                due.append(0)
            else:
                while True:
                    minus, place = heapq.heappop(heap)
                    if due[place] == -minus:
                        break
                del where[holds[place]]
                holds[place] = t
            where[t] = place
            plan.append((t, place + 1))
        due[place] = following[i]
        heapq.heappush(heap, (-following[i], place))
    return plan


def farthest_by_definition(tracks, places):
    """The same by the definition itself; for tests."""
    holds, plan = [None] * places, []
    for i, t in enumerate(tracks):
        if t in holds:
            continue
        if None in holds:
            at = holds.index(None)
        else:
            def due(track):
                return next((j for j in range(i + 1, len(tracks)) if tracks[j] == track),
                            len(tracks))
            latest = max(due(h) for h in holds)
            at = next(k for k in range(places) if due(holds[k]) == latest)
        holds[at] = t
        plan.append((t, at + 1))
    return plan


def fewest(tracks, places):
    """The least cost of any plan, by trying all; for small tests."""
    states = {frozenset(): 0}
    for t in tracks:
        after = {}
        for held, cost in states.items():
            if t in held:
                options = [(held, cost)]
            elif len(held) < places:
                options = [(held | {t}, cost + 1)]
            else:
                options = [((held - {h}) | {t}, cost + 1) for h in held]
            for key, value in options:
                if value < after.get(key, 1 << 60):
                    after[key] = value
        states = after
    return min(states.values())
