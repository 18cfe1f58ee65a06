"""The frames that an event log names, and the addresses of their documents."""


class Frames:
    """Which frame is below which, and what each shows."""

    def __init__(self):
        self.parents = {}
        self.urls = {}

    def root(self, frame):
        """The top frame above a frame, whose name is the tab's."""
        seen = set()
        while frame in self.parents and frame not in seen:
            seen.add(frame)
            frame = self.parents[frame]
        return frame

    def with_address(self, frame):
        """The nearest frame at or above a frame whose document has an address of its own, and whether it is above."""
        nearest, seen = frame, set()
        while self.is_local(nearest) and nearest in self.parents and nearest not in seen:
            seen.add(nearest)
            nearest = self.parents[nearest]
        return nearest, nearest != frame

    def is_local(self, frame):
        """Whether the frame shows an `about:` document, as of a `srcdoc`."""
        return self.urls.get(frame, '').startswith('about:')
