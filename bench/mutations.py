"""What bench/fuzz makes of a script: changes of the tree of its JSON, and of its bytes."""
import json

# Numbers on both sides of each limit that the formats have, and texts that look like numbers.
NUMBERS = [str(each) for each in (0, 1, 2, 3, 8, 9, 15, 16, 17, 31, 32, 33, 63, 64, 65, 99, 100, 101, 255, 256, 257, 258,
                                  512, 513, 514, 769, 1000, 1001, 1 << 16, 999999, 1000000, 1000001, 1 << 31, 1 << 32,
                                  (1 << 40) - 1, 1 << 40, (1 << 48) - 1, 1 << 48, 1 << 53, (1 << 62) - 2, (1 << 62) - 1,
                                  1 << 62, (1 << 63) - 1, 1 << 63, (1 << 64) - 1, 1 << 64, 10**30, 10**400)]
NUMBERS += ["-0", "-1", "1.0", "1e0", "1E400", "0.0", "-1e-400", "01", "+1", "1.", ".5", "1e", "0x10", "NaN", "Infinity"]
TEXTS = ['""', '"0"', '"00"', '"0A"', '"zz"', '"6 1"', '"\\u0036\\u0031"', '"\\ud800"', '"\\ud83d\\ude00"', '"\\u0000"',
         '"\\x61"', '"61', "'61'", '"é"', '"\\/"', '"chosen pev 0 rv 1"', '"%s"' % ("61" * 300)]
LONG = [9999, 10000, 10001, 99999, 100000, 100001]
TYPES = ["null", "true", "false", "0", '""', "[]", "{}", "[[]]", '{"":{}}']
DEPTHS = [1, 2, 120, 124, 125, 126, 127, 128, 129, 1000, 20000]
COUNTS = [2, 3, 16, 17, 31, 32, 33, 64, 65, 100, 101, 1000, 1001]
TOKENS = [b'{', b'}', b'[', b']', b',', b':', b'"', b'\\', b'\\u', b'\\ud800', b'null', b'true', b'-', b'0', b'1e9', b' ',
          b'\n', b'\r', b'\t', b'\0', b'\x0b', b'\x7f', b'\x80', b'\xff', b'\xc0\x80', b'\xef\xbb\xbf', b'\xed\xa0\x80',
          b'\xf4\x90\x80\x80', b'/**/', b'//', b'#']


class Raw:
    """A text that stands in a script as it is."""

    def __init__(self, text):
        self.text = text


def parse(script):
    """The tree of a script: lists, and objects as lists of pairs in a tuple, since a member may stand there twice."""
    return json.loads(script.decode(), object_pairs_hook=lambda pairs: ("object", [list(each) for each in pairs]),
                      parse_int=Raw, parse_float=Raw, parse_constant=Raw)


def text_of(tree):
    """The bytes of a tree."""
    parts = []
    write(tree, parts)
    return "".join(parts).encode("utf-8", "surrogatepass")


def write(tree, parts):
    """Adds the text of a tree. What stands deep in others is a Raw, so this is never called deep."""
    if isinstance(tree, Raw):
        parts.append(tree.text)
    elif isinstance(tree, tuple):
        parts.append("{")
        for at, (name, value) in enumerate(tree[1]):
            parts.append("," if at else "")
            parts.append(name.text if isinstance(name, Raw) else json.dumps(name, ensure_ascii=False))
            parts.append(":")
            write(value, parts)
        parts.append("}")
    elif isinstance(tree, list):
        parts.append("[")
        for at, value in enumerate(tree):
            parts.append("," if at else "")
            write(value, parts)
        parts.append("]")
    else:
        parts.append(json.dumps(tree, ensure_ascii=False))


def places(tree):
    """Each place of a value in a tree, as its holder and the index there; holders are lists, also those of members."""
    found, todo = [], [tree]
    while todo:
        value = todo.pop()
        if isinstance(value, tuple):
            for member in value[1]:
                found.append((member, 1))
                todo.append(member[1])
        elif isinstance(value, list):
            for at, each in enumerate(value):
                found.append((value, at))
                todo.append(each)
    return found


def copied(tree):
    if isinstance(tree, tuple):
        return ("object", [[name, copied(value)] for name, value in tree[1]])
    return [copied(each) for each in tree] if isinstance(tree, list) else tree


class Mutator:
    """Draws mutations. All that it does follows from the random numbers that it is given. Scripts are changed into one
    another, and parts of the further pieces are put into them."""

    def __init__(self, random, corpus, pieces=()):
        self.random = random
        self.corpus = corpus
        self.trees = []
        self.names = set()
        for script in [*corpus, *pieces]:
            try:
                tree = parse(script)
            except (ValueError, RecursionError):
                continue
            if isinstance(tree, tuple):
                self.trees.append(tree)
                self.names |= {holder[0] for holder, _ in places(tree) if holder and isinstance(holder[0], str)}
        self.names = sorted(self.names)

    def pick(self, values):
        return values[int(self.random.random() * len(values))]

    def chance(self, share):
        return self.random.random() < share

    def below(self, limit):
        return int(self.random.random() * limit)

    def mutated(self, script):
        """A script with one to some changes in its tree, or in its bytes, or in both."""
        kind = self.random.random()
        if kind < 0.85:
            script = self.tree_mutated(script)
        if kind > 0.8:
            for _ in range(1 + self.below(3)):
                script = self.bytes_mutated(script)
        return script

    # ---- the tree

    def tree_mutated(self, script):
        try:
            tree = parse(script)
        except (ValueError, RecursionError):
            return self.bytes_mutated(script)
        root = [tree]
        for _ in range(1 if self.chance(0.6) else 1 + self.below(6)):
            self.change_tree(root)
        return text_of(root[0])

    def change_tree(self, root):
        if self.chance(0.5) and self.change_gently(root):
            return
        holder, at = self.pick(places(root))
        value = holder[at]
        if isinstance(value, Raw) and self.chance(0.8):
            holder[at] = self.number(value)
        elif isinstance(value, str) and self.chance(0.8):
            holder[at] = self.text(value)
        elif isinstance(value, list) and value and self.chance(0.7):
            self.change_list(value)
        elif isinstance(value, tuple) and value[1] and self.chance(0.7):
            self.change_members(value[1])
        else:
            self.replace(root, holder, at)

    def change_gently(self, root):
        """What often leaves a script: a member's value from another member of its name, a number beside it, an item out
        or moved. Whether there was anything to change."""
        found = places(root)
        kind = self.below(3)
        if kind == 0:
            members = [holder for holder, at in found if at == 1 and len(holder) == 2 and isinstance(holder[0], str)]
            if members:
                member = self.pick(members)
                member[1] = copied(self.pick([each for each in members if each[0] == member[0]])[1])
            return bool(members)
        if kind == 1:
            numbers = [(holder, at) for holder, at in found if isinstance(holder[at], Raw) and holder[at].text.isdigit()]
            if numbers:
                holder, at = self.pick(numbers)
                holder[at] = Raw(str(max(0, int(holder[at].text) + self.pick((-1, 1, 1, 2)))))
            return bool(numbers)
        lists = [holder[at] for holder, at in found if isinstance(holder[at], list) and len(holder[at]) > 1]
        if lists:
            values = self.pick(lists)
            value = values.pop(self.below(len(values)))
            if self.chance(0.5):
                values.insert(self.below(len(values) + 1), value)
        return bool(lists)

    def replace(self, root, holder, at):
        """Another value in a value's place: of another type, from elsewhere, or the value deep in others."""
        kind = self.below(4)
        if kind == 0:
            holder[at] = Raw(self.pick(TYPES))
        elif kind == 1:
            other, place = self.pick(places(root))
            holder[at] = copied(other[place])
        elif kind == 2 and self.trees:
            other, place = self.pick(places([self.pick(self.trees)]))
            holder[at] = copied(other[place])
        else:
            depth = self.pick(DEPTHS)
            opens, closes = self.pick((("[", "]"), ('{"":', "}"), ('{"ops":[', "]}")))
            inner = text_of(holder[at]).decode("utf-8", "surrogatepass")
            holder[at] = Raw(opens * depth + inner + closes * (depth if self.chance(0.9) else depth - 1))

    def number(self, value):
        if value.text.isdigit() and len(value.text) < 30 and self.chance(0.5):
            return Raw(str(max(0, int(value.text) + self.pick((-2, -1, 1, 2, 256, -256)))))
        return Raw(self.pick(NUMBERS))

    def text(self, value):
        kind = self.below(6)
        if kind == 0:
            return Raw('"%s"' % ("61" * self.pick(LONG)))
        if kind == 1 and value:
            at = self.below(len(value))
            return value[:at] + self.pick("0123456789abcdefA -") + value[at + 1:]
        if kind == 2:
            return value + self.pick(("00", "ff", "0", value))
        if kind == 3:
            return value[: self.below(len(value) + 1)]
        if kind == 4 and value:
            return Raw('"%s"' % "".join("\\u%04x" % ord(each) for each in value))
        return Raw(self.pick(TEXTS))

    def change_list(self, values):
        at = self.below(len(values))
        kind = self.below(6)
        if kind == 0:
            del values[at]
        elif kind == 1:
            values.insert(self.below(len(values) + 1), copied(values[at]))
        elif kind == 2:
            other = self.below(len(values))
            values[at], values[other] = values[other], values[at]
        elif kind == 3 and len(text_of(values[at])) < 200:
            values[at:at] = [values[at]] * self.pick(COUNTS)
        elif kind == 4:
            del values[at:]
        else:
            values.reverse()

    def change_members(self, members):
        at = self.below(len(members))
        kind = self.below(7)
        if kind == 0:
            del members[at]
        elif kind == 1:
            members.append([self.pick(self.names or ["more"]), Raw(self.pick(TYPES))])
        elif kind == 2:
            members[at][0] = self.pick(self.names or ["more"])
        elif kind == 3:
            members.insert(self.below(len(members) + 1), [members[at][0], Raw(self.pick(TYPES + NUMBERS[:40]))])
        elif kind == 4:
            members[at][0] = Raw('"%s"' % "".join("\\u%04x" % ord(each) for each in str(members[at][0])))
        elif kind == 5:
            members.reverse()
        else:
            members[at][0] = Raw('"%s"' % ("k" * self.pick((1, 1000, 100000))))

    # ---- the bytes

    def bytes_mutated(self, script):
        if not script:
            return self.pick(TOKENS)
        at, to = sorted((self.below(len(script) + 1), self.below(len(script) + 1)))
        short = min(to, at + self.below(16))
        kind = self.below(9)
        if kind == 0:
            return script[:at]
        if kind == 1:
            return script[:at] + script[short:]
        if kind == 2:
            return script[:to] + script[at:short] + script[to:]
        if kind == 3:
            return script[:at] + self.pick(TOKENS) + script[at:]
        if kind == 4:
            return script[:at] + bytes([self.below(256)]) + script[at + 1:]
        if kind == 5 and at < len(script):
            return script[:at] + bytes([script[at] ^ (1 << self.below(8))]) + script[at + 1:]
        if kind == 6:
            other = self.pick(self.corpus)
            return script[:at] + other[self.below(len(other) + 1):]
        if kind == 7:
            return script[:at] + self.pick((b" ", b"\n", b"[", b"\\", b"9")) * self.pick((1, 100, 70000)) + script[at:]
        return script + self.pick((b"\n", b" ", b"x", b"\0", script[:at]))
