"""Reads files with a bar of their bytes."""

EACH = 1_000_000  # bytes from one move of the bar to the next


class Counting:
    """A file of bytes that is read with a bar (`update(count)`)."""

    def __init__(self, file, bar):
        self.file, self.bar, self.count = file, bar, 0
        self.name = file.name

    def counted(self, data):
        """Moves the bar for what was read."""
        self.count += len(data)
        if self.count >= EACH:
            self.bar.update(self.count)
            self.count = 0
        return data

    def readline(self, room):
        """The next line, or so many bytes of it."""
        return self.counted(self.file.readline(room))

    def read(self, count=-1):
        """The next bytes."""
        return self.counted(self.file.read(count))

    def seek(self, place):
        """Goes to a place, where the file allows it."""
        return self.file.seek(place)

    def tell(self):
        """The place in the file."""
        return self.file.tell()
