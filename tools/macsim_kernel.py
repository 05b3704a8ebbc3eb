"""Who is in the kernel as the lines of a history go on, and which line may come then, by docs/MANUAL.md (STEPS, OUTPUT). Nothing of it is proved."""
PARTS = {"boot": 0, "source": 2}


class Kernel:
    """The tasks that are in the kernel."""

    def __init__(self):
        # Whether the call of each task that is in the kernel is done.
        self.is_done = {}
        # The part of the history that has come: the boot lines, the events, the sources.
        self.part = 0

    def may_come(self, event):
        """Whether a line of the history may come now."""
        if PARTS.get(event.kind, 1) < self.part:
            return False
        is_done = self.is_done.get(event.task)
        may_come = {
            "enter": is_done is None,
            "done": is_done is False,
            "stale": is_done is False,
            "leave": is_done is True,
            "changed": not self.is_done,
            "waits": is_done is None and event.text == f"waits {event.task} {len(self.is_done) or None}",
        }
        return may_come.get(event.kind, True)

    def follow(self, event):
        self.part = PARTS.get(event.kind, 1)
        if event.kind in ("enter", "done"):
            self.is_done[event.task] = event.kind == "done"
        if event.kind == "leave":
            del self.is_done[event.task]
