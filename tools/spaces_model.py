"""The rules of address spaces and of late copies, which a model of grants (tools/grants_model.py) may have besides.

They are written after docs/machine.md ("The refill handler") and docs/architecture.md ("Late copies"), and share nothing
with the program. What a buffer is, is left to the model.
"""
LAST_NUMBER = 63


class AddressSpaces:
    """Numbers of address spaces: a process gets one when it comes on the processor, and loses it at its end."""

    def begin_spaces(self):
        self.numbers, self.handed_out = {}, 0  # process: its number

    def take_number(self, p):
        """Who has no number gets the next; where none is left, all lose theirs first, and the buffer is flushed."""
        if p in self.numbers:
            return
        if self.handed_out == LAST_NUMBER:
            self.numbers, self.handed_out = {}, 0
            self.flush()
        self.handed_out += 1
        self.numbers[p] = self.handed_out

    def flush(self):
        """The buffer has nothing from now on."""

    def forget(self, p, address):
        """What the buffer has of an entry goes."""

    def changes(self, verb, p, address):
        """The number of a process that ends goes to nobody before all lose theirs. What the buffer has of others goes."""
        if verb == "end":
            self.numbers.pop(p, None)
        elif p in self.numbers:
            self.forget(p, address)


class LateCopies:
    """Where pages lie: a copy lies in the frame of its page, and both are marked, until one of them is stored to."""

    def place_pages(self):
        self.lies, self.marked = list(range(self.frames)), set()

    def copy_page(self, page, copy):
        super().copy_page(page, copy)
        self.lies[copy] = self.lies[page]
        self.marked.update((page, copy))
        self.rewrite(page)

    def may_be_stored_to(self, entry):
        return entry.right == "write" and entry.page not in self.marked

    def split(self, p, address):
        """Before the first store to a page it gets the first frame in which no page lies, where another lies in its own."""
        page = self.entry(p, address).page
        lying = [self.lies[it] for it in self.live_pages()]
        if lying.count(self.lies[page]) > 1:
            self.lies[page] = min(set(range(self.frames)).difference(lying))
        self.marked.discard(page)
        self.rewrite(page)
        return 0

    def rewrite(self, page):
        """Where a page lies, or whether it is marked, is another: so are all that a buffer has of it."""
        for (p, address), entry in self.table.items():
            if entry.page == page:
                self.rewrite_entry(p, address)
