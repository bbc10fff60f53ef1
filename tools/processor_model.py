"""The processor under a run: its translation lookaside buffer, the refill handler and what the monitor serves, as counts and entries.

It is written after docs/machine.md ("The refill handler") and docs/architecture.md ("How a user instruction travels", "Late copies"),
over tools/hostile_model.py and tools/spaces_model.py, and shares nothing with the program. The model of a run says what a unit asks for: its fetches, its load
or its store, in their order. Here that unit is begun again and again until nothing of it is missing.
"""
from collections import Counter, namedtuple

from hostile_model import Hostile, NotQuiet
from spaces_model import AddressSpaces, LateCopies

SLOTS, WIRED = 64, 8
FIRST_TABLE_PAGE, FIRST_FRAME, EMPTY_TABLE = 0xC0000, 402, 1

# An access of a unit: its kind, its address and the one that it has after a touch, and whether it goes by the buffer.
Ask = namedtuple("Ask", "kind address after_touch is_mapped")
# An entry of the buffer: a page of an address space, its frame, and whether that may be read and written.
Translation = namedtuple("Translation", "page number frame is_valid is_dirty")


class Buffer:
    """64 slots of translations, of which Random names one from 8 on, and of which the first eight take the pages of page tables in turn."""

    def __init__(self, random):
        self.slots, self.random, self.next_wired = [None] * SLOTS, random, 0

    def find(self, page, number):
        return next((slot for slot, it in enumerate(self.slots) if it and (it.page, it.number) == (page, number)), None)

    def tick(self):
        self.random = SLOTS - 1 if self.random == WIRED else self.random - 1

    def forget(self, page, number):
        slot = self.find(page, number)
        if slot is not None:
            self.slots[slot] = None


class Processor(AddressSpaces, LateCopies, Hostile):
    """A run with the processor that goes through it, from a start of Random."""

    def __init__(self, *begun):
        *begun, random = begun
        super().__init__(*begun)
        self.buffer, self.done, self.is_known = Buffer(random), Counter(), True
        self.begin_spaces()
        self.place_pages()
        self.places = {p: [None] * 4 for p in self.processes}
        self.asks = None
        self.place_tables()
        self.enter()

    # Address spaces, page tables and frames.

    def enter(self):
        """Who is first has the number of an address space."""
        if self.ready:
            self.take_number(self.ready[0])

    def flush(self):
        self.buffer.slots = [None] * SLOTS

    def forget(self, p, address):
        """What the buffer has of an address goes, and of the page of its page table."""
        self.buffer.forget(address >> 12, self.numbers[p])
        self.buffer.forget(FIRST_TABLE_PAGE + (address >> 22), self.numbers[p])

    def place_tables(self):
        """Each region of a process with an entry has the first of its four places for tables that is free."""
        for p, places in self.places.items():
            regions = [at >> 22 for at in self.row(p)]
            places[:] = [it if it in regions else None for it in places]
            for region in regions:
                if region not in places:
                    places[places.index(None)] = region

    def translation(self, p, page):
        """What the page tables of a process have for a page, or what there is for a page of them."""
        number = self.numbers[p]
        if page >= FIRST_TABLE_PAGE:
            places, region = self.places[p], page - FIRST_TABLE_PAGE
            return Translation(page, number, 2 + 4 * (p - 1) + places.index(region) if region in places else EMPTY_TABLE, True, False)
        entry = self.entry(p, page << 12)
        if entry.right == "none":
            return Translation(page, number, 0, False, False)
        return Translation(page, number, FIRST_FRAME + self.lies[entry.page], True, self.may_be_stored_to(entry))

    def rewrite_entry(self, p, address):
        slot = self.buffer.find(address >> 12, self.numbers.get(p))
        if slot is not None:
            self.buffer.slots[slot] = self.translation(p, address >> 12)

    def obey(self, verb, *words):
        super().obey(verb, *words)
        self.place_tables()

    # A unit.

    def at(self, p, kind, address, size):
        if self.asks is not None:
            self.asks.append(Ask(kind, address, address, address % size == 0 and address < 2**31))
        return super().at(p, kind, address, size)

    def accessed(self, p, q, kind, base, offset, size):
        found = super().accessed(p, q, kind, base, offset, size)
        if base == 26:  # (the access was looked at with what the register holds, and with 0)
            *self.asks, before, after = self.asks
            self.asks.append(before._replace(after_touch=after.address))
            self.is_known &= before == after
        return found

    def unit(self, p):
        self.asks = []
        ticks = super().unit(p)
        if self.asks is not None:
            self.go_through(p)
        if self.processes[p].state == "Parked":
            self.counts("service", "end")
        self.enter()
        return ticks

    def call(self, p, q):
        self.go_through(p)
        self.counts("service", "end")
        super().call(p, q)
        self.place_tables()

    def go_through(self, p):
        """The unit of which all that it asks for is known."""
        asks, self.asks = self.asks, None
        while not self.begin(p, asks):
            asks = [it._replace(address=it.after_touch) for it in asks]

    def begin(self, p, asks):
        """The unit from its beginning to its end, or to the first thing for which it has to begin again: whether it came to its end."""
        for ask in asks:
            if ask.kind == "fetch":
                self.instructions(1)
            if not ask.is_mapped:
                continue
            slot = self.buffer.find(ask.address >> 12, self.numbers[p])
            if slot is None:
                self.refill(p, ask.address >> 12)
                return False
            if ask.kind == "store" and not self.buffer.slots[slot].is_dirty and self.entry(p, ask.address - ask.address % 4096).right == "write":
                self.counts("service", "copy")
                self.split(p, ask.address - ask.address % 4096)
                return False
        return True

    def refill(self, p, page):
        """The nine words of the handler; or the first three, where the third misses, and the service of that."""
        self.counts("refill")
        self.instructions(3)
        table = FIRST_TABLE_PAGE + (page >> 10)
        if self.buffer.find(table, self.numbers[p]) is None:
            self.counts("service", "double")
            self.buffer.slots[self.buffer.next_wired] = self.translation(p, table)
            self.buffer.next_wired = (self.buffer.next_wired + 1) % WIRED
            return
        self.instructions(3)
        self.buffer.slots[self.buffer.random] = self.translation(p, page)
        self.instructions(3)

    def instructions(self, n):
        for _ in range(n):
            self.counts("instruction")
            self.buffer.tick()

    def counts(self, *kinds):
        """Each of these happened once more."""
        self.done.update(kinds)

    def entries(self):
        """The lines of the valid entries."""
        if not self.is_known:
            raise NotQuiet
        for slot, it in enumerate(self.buffer.slots):
            if it and it.is_valid:
                yield f"entry {slot} {it.page << 12:08X} {it.number} {it.frame << 12:08X} {'write' if it.is_dirty else 'read'}"
