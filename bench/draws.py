#!/usr/bin/env python3
"""bench/draws.py

Works out what a storm draws, from the published definitions of PCG32 (O'Neill's reference code in C) and of Rust's
`seed_from_u64` (rand_core), and prints the tables that tests/clusters compares. It first checks itself by published
values. No code of this repository is used."""

MASK = (1 << 64) - 1
MULTIPLIER = 6364136223846793005


def output(state):
    """XSH RR: the high bits, rotated by the top five."""
    word, turn = ((state >> 18) ^ state) >> 27 & 0xFFFFFFFF, state >> 59
    return (word >> turn | word << (32 - turn) & 0xFFFFFFFF) & 0xFFFFFFFF


class Pcg32:
    def __init__(self, state, increment):
        self.increment = increment | 1
        self.state = ((state + self.increment) * MULTIPLIER + self.increment) & MASK

    def word(self):
        before = self.state
        self.state = (before * MULTIPLIER + self.increment) & MASK
        return output(before)


def seed_bytes(number, length):
    """The bytes of a seed that `seed_from_u64` makes: words of a generator with an increment of its own."""
    found = b""
    while len(found) < length:
        number = (number * MULTIPLIER + 11634580027462260723) & MASK
        found += output(number).to_bytes(4, "little")
    return found


def seeded(number):
    """`Pcg32::seed_from_u64`, at a number that wraps."""
    seed = seed_bytes(number & MASK, 16)
    return Pcg32(int.from_bytes(seed[:8], "little"), int.from_bytes(seed[8:], "little"))


def word_of(number):
    """The first word of `seeded(number)`, in one go: a storm draws one for each ask."""
    number &= MASK
    seed = 0
    for place in (0, 32, 64, 96):
        number = (number * MULTIPLIER + 11634580027462260723) & MASK
        seed |= output(number) << place
    increment = seed >> 64 | 1
    return output((((seed & MASK) + increment) * MULTIPLIER + increment) & MASK)


def verdict(strength, word, late=0):
    """What happens to an ask. One that is late, or whose tell is, comes so many turns later."""
    if word % 256 < strength:
        return ("DropAsk", "DropTell", "Twice")[word // 256 % 3]
    if word // 65536 % 256 < late:
        return f"{('LateAsk', 'LateTell')[word // 2**24 % 2]} {{ turns: {word // 2**25 % 64 + 1} }}"
    return "Pass"


def log(epoch, index):
    return f"{{ epoch: Epoch {{ number: {epoch} }}, index: {index} }}"


def crash(strength, coordinators, logs, word):
    if word % 256 >= strength:
        return "None"
    if word // 65536 % 2 == 0:
        return f"Some(Crash {{ node: Cell {{ index: {word // 256 % coordinators} }} }})"
    return f"Some(Crash {{ node: Log {log(257, word // 256 % logs)} }})"


def blow(crashes, losses, chosen, word):
    """What befalls a node of a chosen generation, each of which is (epoch, logs, degree)."""
    epoch, logs, degree = chosen[word // 65536 % len(chosen)]
    number = word // 2**24
    if word % 256 < crashes:
        index = number % (logs + 1)
        sequencer = f"Sequencer {{ epoch: Epoch {{ number: {epoch} }} }}"
        return f"Some(Crash {{ node: {f'Log {log(epoch, index)}' if index < logs else sequencer} }})"
    if word // 256 % 256 < losses and degree > 1:
        return f"Some(Lose {{ log: LogId {log(epoch, (epoch // 256 + number % (degree - 1)) % logs)} }})"
    return "None"


def ends(crashes, word):
    """Whether a node that asks is gone."""
    return str(word % 256 < crashes).lower()


def fuse(every, word):
    """Of how many calls of a device or a file the last one is refused."""
    return every + word % every


def orders(seed, number, shards, many):
    """The batches of a workload: what each does, to which key, with which bytes; of a clear from where to where."""
    generator = seeded(seed + number)
    for _ in range(many):
        word, operand = generator.word(), generator.word()
        begin, key, kind = word % shards * 8, word // 256 % 4, word // 65536 % 4
        if kind == 3:
            yield "clear", bytes([begin]).hex(), bytes([begin, 2]).hex()
        else:
            yield ("set", "add", "xor")[kind], bytes([begin, key]).hex(), operand.to_bytes(4, "big").hex()


def batch(kind, *both):
    """The step of a batch and its mutation, as they are printed."""
    first, second = (f"Bytes {{ content: {list(bytes.fromhex(each))} }}" for each in both)
    if kind == "clear":
        return f"1 [Clear {{ begin: {first}, end: {second} }}]"
    if kind == "set":
        return f"1 [Set {{ key: {first}, value: {second} }}]"
    return f"1 [Atomic {{ op: {kind.capitalize()}, key: {first}, param: {second} }}]"


def is_published():
    """The first words of PCG's demonstration (state 42, stream 54), rand_pcg's first 64 bits of seed 0, and rand_core's
    seed of 8 bytes of 0."""
    reference = Pcg32(42, 54 << 1)
    words = [0xA15C02B7, 0x7B47F409, 0xBA1D3330, 0x83D2F293, 0xBFA4784B, 0xCBED606E]
    first = seeded(0)
    return (
        [reference.word() for _ in words] == words
        and first.word() | first.word() << 32 == 18195738587432868099
        and int.from_bytes(seed_bytes(0, 8), "little") == 5029875928683246316
        and all(word_of(number) == seeded(number).word() for number in (0, 1, 2021, 1 << 63, MASK, 1 << 64))
    )


def show(title, lines):
    print(f"{title}:")
    for line in lines:
        print(f"  {line}")


def main():
    assert is_published()
    numbers = (0, 1, 2, 3, 42, 2021, 1 << 32, 1 << 63, MASK)
    show("the first word that a number gives", (f"{number} {word_of(number)}" for number in numbers))
    show("words 0 to 3 of the greatest seed", (word_of(MASK + call) for call in range(4)))
    title = "asks 0 to 23 in a storm of seed 1 and strength 128"
    show(title, (verdict(128, word_of(1 + call)) for call in range(24)))
    for strength, many in ((100, 13), (256, 16)):
        title = f"crashes of seed 7 and strength {strength}, with 5 coordinators and 6 logs"
        show(title, (crash(strength, 5, 6, word_of(7 + call)) for call in range(many)))
    title = "asks 0 to 23 in a storm of seed 5, strength 64 and lateness 160"
    show(title, (verdict(64, word_of(5 + call), 160) for call in range(24)))
    chosen = ((257, 6, 2), (513, 4, 4), (769, 1, 1))
    title = "blows of seed 9, 100 crashes and 160 losses, of generations 257 (6 logs, 2), 513 (4, 4) and 769 (1, 1)"
    show(title, (blow(100, 160, chosen, word_of(9 + call)) for call in range(24)))
    title = "whether nodes that ask are gone, of seed 3 and 100 crashes"
    show(title, (ends(100, word_of(3 + call)) for call in range(16)))
    fuses = [fuse(300, word_of(6 + number)) for number in (0, 1, 64, 65, 4112, 8208)]
    title = "of how many calls one is refused, of the numbers 0, 1, 64, 65, 4112 and 8208, of seed 6 and at least 300"
    show(title, (f"{each} of {each}" for each in fuses))
    for seed, number, shards, many in ((1, 0, 3, 12), (MASK, 2, 32, 8)):
        title = f"batches of workload {number} in a storm of seed {seed}, over {shards} shards"
        show(title, (batch(*order) for order in orders(seed, number, shards, many)))


if __name__ == "__main__":
    main()
