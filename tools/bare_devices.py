"""Memory and the devices of tools/bare_model.py, written after docs/machine.md ("Memory and devices")."""

SIZE, SILO = 2**23, 64
CLOCK, CLOCK_END = 0x1FE8_0000, 0x1FE8_0100


class BusError(Exception):
    """Nothing answers there."""


class Bus:
    """8 MiB of memory with an image at 00400000, four serial lines, a clock and the system register."""

    def __init__(self, image):
        self.memory = bytearray(SIZE)
        self.memory[0x40_0000:0x40_0000 + len(image)] = image
        self.asks_for_received = self.is_scanned = self.is_overrun = False
        self.enables, self.silo, self.waiting = 0, [], None
        self.rate, self.is_enabled, self.is_flagged, self.time = 0, False, False, 0
        self.system = 0

    def is_memory(self, place):
        return place < SIZE

    def word(self, place):
        return int.from_bytes(self.memory[place & ~3:(place & ~3) + 4], "little")

    # The lines, the clock, and what they ask for.

    def line(self):
        """The lowest enabled line, or 0."""
        return next((k for k in range(4) if self.enables >> k & 1), 0)

    def can_send(self):
        return self.is_scanned and self.enables != 0

    def receive(self, line, byte):
        """A character comes in."""
        if self.is_scanned and len(self.silo) < SILO:
            self.silo.append((line, byte))
        else:
            self.is_overrun |= self.is_scanned

    def tick(self):
        before, self.time = self.time, self.time + 1
        if self.rate >= 3 and before >> self.rate + 2 != self.time >> self.rate + 2:
            self.is_flagged = True

    def leaving(self):
        """The character that waited to leave."""
        gone, self.waiting = [self.waiting] if self.waiting else [], None
        return gone

    def lines_ask(self):
        return bool(self.silo) and self.asks_for_received

    def requests(self):
        """What the devices ask for, as Cause shows it: IP2 of the lines, IP3 of the clock."""
        return (self.lines_ask() and self.system >> 7 & 1) << 10 | (self.is_flagged and self.is_enabled) << 11

    # Loads and stores. A size is 1, 2 or 4, or a part of a word.

    def load(self, place, size):
        if self.is_memory(place):
            return self.word(place) if size == "part" else int.from_bytes(self.memory[place:place + size], "little")
        if size != 4:
            raise BusError
        match place:
            case 0x1FE0_0000: return self.can_send() << 15 | self.line() << 8 | bool(self.silo) << 7 | self.asks_for_received << 6 | self.is_scanned << 5
            case 0x1FE0_0008:
                if not self.silo:
                    return 0
                (line, byte), was, self.is_overrun = self.silo.pop(0), self.is_overrun, False
                return 1 << 15 | was << 14 | line << 8 | byte
            case 0x1FE0_0010: return self.enables
            case 0x1FE0_0018: return 0
            case 0x1FE8_0028: return self.rate
            case 0x1FE8_002C: return self.is_enabled << 6
            case 0x1FE8_0030:
                was, self.is_flagged = self.is_flagged, False
                return (was and self.is_enabled) << 7 | was << 6
            case 0x1FF0_0000: return self.system << 16 | self.lines_ask() << 7
        if not CLOCK <= place < CLOCK_END:
            raise BusError
        return 0

    def store(self, place, data, is_word):
        """A store of bytes. A register takes a whole word alone."""
        value = int.from_bytes(data, "little")
        match place:
            case _ if self.is_memory(place): self.memory[place:place + len(data)] = data
            case _ if not is_word: raise BusError
            case 0x1FE0_0000: self.asks_for_received, self.is_scanned = bool(value & 0x40), bool(value & 0x20)
            case 0x1FE0_0010: self.enables = value & 15
            case 0x1FE0_0018: self.waiting = (self.line(), value & 255) if self.can_send() else self.waiting
            case 0x1FE8_0028: self.rate = value & 15
            case 0x1FE8_002C: self.is_enabled = bool(value & 0x40)
            case 0x1FF0_0000: self.system = value >> 16 & 255
            case 0x1FE0_0008: pass
            case _ if not CLOCK <= place < CLOCK_END: raise BusError
