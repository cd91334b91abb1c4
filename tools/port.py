"""The reference reading of the plotter's port (document 02, Four): registers of bits, and the actions of a history by their letters.

It shares nothing with crates/plotter but the request's words: a status is a list of eight bits, and nothing is masked.
"""
READY, PAPER_OUT, PENDING = 0, 1, 2     # bits of status
THROUGH = 0                             # the bit of control


def bits(byte):
    """The bits of a byte, bit 0 first."""
    return [byte // 2**k % 2 for k in range(8)]


def byte(bits):
    return sum(2**k for k in range(8) if bits[k])


class Port:
    """The registers, and what is unsent."""

    def __init__(self, registers, listing):
        status, control, self.data, self.sum = registers
        self.status, self.control, self.unsent = bits(status), bits(control), listing

    def registers(self):
        return bytes([byte(self.status), byte(self.control), self.data, self.sum])

    def step(self):
        """One step: the bytes that it sends."""
        sent = b""
        if self.status[READY] and not self.status[PAPER_OUT] and self.unsent:
            sent, self.unsent = self.unsent[:1], self.unsent[1:]
            self.data = sent[0]
            self.status[READY] = 0
            self.sum = (self.sum + sent[0]) % 256
        self.status[PENDING] = 0
        return sent

    def ready_again(self):
        self.status[READY] = 1
        if self.control[THROUGH]:
            self.status[PENDING] = 1

    def out_of_paper(self):
        self.status[PAPER_OUT] = 1

    def paper_in(self):
        self.status[PAPER_OUT] = 0

    def interrupts_on(self):
        self.control[THROUGH] = 1

    def interrupts_off(self):
        self.control[THROUGH] = 0

    def action(self, letter):
        """What a letter stands for: the bytes that it sends."""
        return ACTIONS[letter](self) or b""


ACTIONS = {"s": Port.step, "r": Port.ready_again, "o": Port.out_of_paper, "i": Port.paper_in, "+": Port.interrupts_on, "-": Port.interrupts_off}


def drawn(rng, count):
    """A random script of so many actions, in stretches of a like mood: plotting, waiting, paper trouble, anything."""
    moods = ("rs", "rs", "rsrsrs+-", "s", "ors", "irs", "sroi+-")
    script = ""
    while len(script) < count:
        mood = rng.choice(moods)
        script += "".join(rng.choice(mood) for _ in range(rng.randint(1, 20)))
    return script[:count]
