"""Why a file is refused, with all that is needed to say it in words."""


class Fault:
    """A reason as the program words it, and where it comes from: the record and its field, or the key of a plan."""

    def __init__(self, kind, row=None, record=None, field=None, key=None, value=None, other=None):
        self.kind, self.row, self.record, self.field = kind, row, record, field
        self.key, self.value, self.other = key, value, other

    @property
    def reason(self):
        if self.row is not None:
            return f"{self.kind} at row {self.row}"
        if self.kind == "no step":
            return f"{self.kind} {self.value}"
        return self.kind if self.key is None else f"{self.kind} {self.key}"
