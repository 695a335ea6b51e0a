"""Compares greatest delays with their bounds."""


class Bounded:
    """Is what has a greatest delay beside its bound, both in ns."""
    greatest: int | None  # None where nothing was sent
    bound: int | None  # None where none is promised

    @property
    def slack(self) -> int | None:
        return None if self.bound is None or self.greatest is None else self.bound - self.greatest

    @property
    def share(self) -> float | None:
        """Returns which part of its bound the greatest delay took."""
        return None if self.bound is None or self.greatest is None else self.greatest / self.bound


class Sender(Bounded):
    """Is what sent so many frames."""
    sent: int
