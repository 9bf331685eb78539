"""A slow, plain follower, over Python's own bytes, lists and dictionaries: what the proved one is compared with.

It reads all that it keeps anew at each step, and knows effects by their description alone."""

from tests.support.program import request

# no offset is greater, and no length
MOST = 2**62
# before a line's end
MOST_OF_A_LINE = 1024
MOST_WORDS, MOST_OF_A_WORD = 1_048_576, 536_870_912
MOST_SCORE = 2**53
# so many items stand in one command of a snapshot
MOST_ITEMS = 64
UNDECODABLE = "undecodable stream"
TORN = "a group that does not apply as a whole, and the dataset is spent"


class Wanted(Exception):
    """More bytes are wanted."""


class Refused(Exception):
    """The master's bytes are refused, for this."""


class Fault(Exception):
    """An effect can't be applied, or there is none."""


class Torn(Exception):
    """A later effect of a group can't be applied."""


def byte_at(data, at):
    if at >= len(data):
        raise Wanted
    return data[at]


# ---- lines


def line_at(data):
    """What the line at the front says: its mark, its text, and how many bytes it has with its end."""
    if byte_at(data, 0) not in b"+-$":
        raise Refused("bad line")
    at = 0
    while byte_at(data, at) not in b"\r\n":
        at += 1
        if at > MOST_OF_A_LINE:
            raise Refused("bad line")
    for end in b"\r\n":
        if byte_at(data, at) != end:
            raise Refused("bad line")
        at += 1
    text = data[1 : at - 2]
    if data[:1] == b"$" and not is_count(text):
        raise Refused("bad line")
    return data[:1], text, at


def is_count(text):
    return text.isdigit() and str(int(text)).encode() == text and int(text) <= MOST


def is_id(text):
    return len(text) == 40 and all(byte in b"0123456789abcdef" for byte in text)


# ---- command texts


def count_at(data, at, mark, least, most):
    """The number on the line that begins here, and where the line ends."""
    if byte_at(data, at) != ord(mark):
        raise Refused(UNDECODABLE)
    first = at = at + 1
    while byte_at(data, at) in b"0123456789":
        at += 1
        digits = data[first:at]
        if int(digits) > most or str(int(digits)).encode() != digits or (least and digits == b"0"):
            raise Refused(UNDECODABLE)
    if at == first:
        raise Refused(UNDECODABLE)
    return int(data[first:at]), line_end_at(data, at)


def line_end_at(data, at):
    for end in b"\r\n":
        if byte_at(data, at) != end:
            raise Refused(UNDECODABLE)
        at += 1
    return at


def command_at(data):
    """The words of the command text at the front, and its length."""
    count, at = count_at(data, 0, "*", 1, MOST_WORDS)
    words = []
    for _ in range(count):
        length, at = count_at(data, at, "$", 0, MOST_OF_A_WORD)
        if at + length > len(data):
            raise Wanted
        words.append(data[at : at + length])
        at = line_end_at(data, at + length)
    return words, at


# ---- effects, spelled. An effect is the words of its one spelling


def number(word, least=-(2**63), most=2**63 - 1):
    """The number that a word is, in its one spelling."""
    text = word.decode("latin-1")
    try:
        if str(int(text)) != text:
            raise Fault
    except ValueError:
        raise Fault from None
    if not least <= int(text) <= most:
        raise Fault
    return int(text)


# the words behind each name: `w` is any word, `n` a number, `p` a place or an offset, `d` a deadline, `s` a score; what
# stands behind a bar comes once or more often, and what is in capitals is that word
SPELLINGS = {
    "SET": ["w w", "w w KEEPTTL", "w w PXAT d"],
    "MSET": ["| w w"],
    "APPEND": ["w w"],
    "SETRANGE": ["w p w"],
    "INCRBY": ["w n"],
    "DEL": ["w"],
    "FLUSHALL": [""],
    "PING": [""],
    "PEXPIREAT": ["w d"],
    "PERSIST": ["w"],
    "RENAME": ["w w"],
    "HSET": ["w | w w"],
    "HDEL": ["w | w"],
    "LPUSH": ["w | w"],
    "RPUSH": ["w | w"],
    "LPOP": ["w n"],
    "RPOP": ["w n"],
    "LSET": ["w p w"],
    "LINSERT": ["w BEFORE w w", "w AFTER w w"],
    "LREM": ["w n w"],
    "LTRIM": ["w n n"],
    "LMOVE": ["w w %s %s" % (taken, put) for taken in ("LEFT", "RIGHT") for put in ("LEFT", "RIGHT")],
    "SADD": ["w | w"],
    "SREM": ["w | w"],
    "SMOVE": ["w w w"],
    "ZADD": ["w | s w"],
    "ZREM": ["w | w"],
}
LIMITS = {"n": (), "p": (0,), "d": (1, MOST), "s": (-MOST_SCORE, MOST_SCORE)}


def effect_of(words):
    """The words, where they spell an effect."""
    spellings = SPELLINGS.get(words[0].decode("latin-1"), [])
    if not any(spells(spelling, words[1:]) for spelling in spellings):
        raise Fault
    return words


def spells(spelling, words):
    """Whether the words are of this spelling."""
    once, _, more = spelling.partition("|")
    marks, more = once.split(), more.split()
    if more:
        marks += more * max(1, (len(words) - len(marks)) // len(more))
    return len(marks) == len(words) and all(map(is_meant, marks, words))


def is_meant(mark, word):
    """Whether a mark of a spelling stands for this word."""
    if mark not in LIMITS:
        return mark in ("w", word.decode("latin-1"))
    try:
        number(word, *LIMITS[mark])
    except Fault:
        return False
    return True


# ---- groups: an effect, or two or more that aren't PING between MULTI and EXEC


def group_at(data):
    """The effects of the group whose text is at the front, and the length of that."""
    words, end = command_at(data)
    if words != [b"MULTI"]:
        return [effect_of(words)], end
    effects = []
    while True:
        words, length = command_at(data[end:])
        end += length
        if words == [b"EXEC"]:
            break
        if words == [b"PING"]:
            raise Fault
        effects.append(effect_of(words))
    if len(effects) < 2:
        raise Fault
    return effects, end


# ---- a dataset. An entry is a value and a deadline or None; a sorted set is a dictionary of scores in a class of its own


class Scores(dict):
    """A sorted set."""


def within(word):
    if len(word) > MOST_OF_A_WORD:
        raise Fault
    return word


class Entries:
    """A dataset. Each effect is a method that takes the words behind its name; it raises before it changes anything."""

    def __init__(self):
        self.entries = {}

    def apply(self, words):
        EFFECTS[effect_of(words)[0]](self, *words[1:])

    def apply_group(self, effects):
        """Nothing has changed where the first can't be applied; where a later one can't, those before it were."""
        self.apply(effects[0])
        try:
            for words in effects[1:]:
                self.apply(words)
        except Fault:
            raise Torn from None

    def value(self, key, kind):
        """The value under a key, or an empty one; a fault where one of another kind stands there."""
        held = self.entries.get(key, (kind(), None))[0]
        if type(held) is not kind:
            raise Fault
        return held

    def there(self, key, kind):
        if key not in self.entries:
            raise Fault
        return self.value(key, kind)

    def put(self, key, value):
        """Puts a value in place of the one before, with its deadline; an empty collection goes."""
        if value or type(value) is bytes:
            self.entries[key] = (value, self.entries.get(key, (None, None))[1])
        else:
            self.entries.pop(key, None)

    def set(self, key, text, *options):
        deadline = int(options[1]) if options[1:] else None
        if options == (b"KEEPTTL",):
            deadline = self.entries.get(key, (None, None))[1]
        self.entries[key] = (text, deadline)

    def mset(self, *words):
        for key, text in pairs(words):
            self.set(key, text)

    def append(self, key, text):
        self.put(key, within(self.value(key, bytes) + text))

    def set_range(self, key, offset, text):
        offset, held = int(offset), self.value(key, bytes)
        if text:
            if offset + len(text) > MOST_OF_A_WORD:
                raise Fault
            self.put(key, held[:offset].ljust(offset, b"\0") + text + held[offset + len(text) :])

    def increase(self, key, by):
        held = self.value(key, bytes)
        total = int(by) + (number(held) if key in self.entries else 0)
        self.put(key, b"%d" % number(b"%d" % total))

    def delete(self, key):
        self.entries.pop(key, None)

    def clear(self):
        self.entries.clear()

    def ping(self):
        pass

    def expire(self, key, deadline):
        if key not in self.entries:
            raise Fault
        self.entries[key] = (self.entries[key][0], int(deadline))

    def persist(self, key):
        if key not in self.entries:
            raise Fault
        self.entries[key] = (self.entries[key][0], None)

    def rename(self, key, to):
        if key not in self.entries:
            raise Fault
        self.entries[to] = self.entries.pop(key)

    def set_fields(self, key, *words):
        self.put(key, {**self.value(key, dict), **dict(pairs(words))})

    def remove_fields(self, key, *fields):
        held = self.value(key, dict)
        self.put(key, {field: held[field] for field in held if field not in fields})

    def push_left(self, key, *items):
        self.put(key, list(reversed(items)) + self.value(key, list))

    def push_right(self, key, *items):
        self.put(key, self.value(key, list) + list(items))

    def pop_left(self, key, count):
        held = self.value(key, list)
        self.put(key, held[number(count, 1, len(held)) :])

    def pop_right(self, key, count):
        held = self.value(key, list)
        self.put(key, held[: len(held) - number(count, 1, len(held))])

    def set_item(self, key, place, item):
        held = self.value(key, list)
        place = number(place, 0, len(held) - 1)
        self.put(key, held[:place] + [item] + held[place + 1 :])

    def insert(self, key, side, pivot, item):
        held = self.value(key, list)
        if pivot not in held:
            raise Fault
        place = held.index(pivot) + (side == b"AFTER")
        self.put(key, held[:place] + [item] + held[place:])

    def remove_items(self, key, count, item):
        count, held = int(count), list(self.value(key, list))
        held = held[::-1] if count < 0 else held
        left, most = [], abs(count) or len(held)
        for it in held:
            if it == item and most:
                most -= 1
            else:
                left.append(it)
        self.put(key, left[::-1] if count < 0 else left)

    def trim(self, key, first, last):
        held = self.value(key, list)
        last = number(last, 0, len(held) - 1)
        self.put(key, held[number(first, 0, last) : last + 1])

    def move_item(self, key, to, taken, put):
        held = list(self.there(key, list))
        item = held.pop(0 if taken == b"LEFT" else -1)
        goal = held if to == key else list(self.value(to, list))
        goal.insert(0 if put == b"LEFT" else len(goal), item)
        self.put(key, held)
        self.put(to, goal)

    def add_members(self, key, *members):
        self.put(key, self.value(key, set) | set(members))

    def remove_members(self, key, *members):
        self.put(key, self.value(key, set) - set(members))

    def move_member(self, key, to, member):
        if member not in self.value(key, set):
            raise Fault
        self.value(to, set)
        self.put(key, self.value(key, set) - {member})
        self.put(to, self.value(to, set) | {member})

    def set_scores(self, key, *words):
        scores = {member: int(score) for score, member in pairs(words)}
        self.put(key, Scores({**self.value(key, Scores), **scores}))

    def remove_scores(self, key, *members):
        held = self.value(key, Scores)
        self.put(key, Scores({member: held[member] for member in held if member not in members}))

    def texts(self):
        """The commands that make the dataset."""
        made = b""
        for key in sorted(self.entries):
            value, deadline = self.entries[key]
            for name, words in commands_of(value):
                made += request(name, key, *words)
            if deadline is not None:
                made += request("PEXPIREAT", key, str(deadline))
        return made


def pairs(words):
    return list(zip(words[::2], words[1::2]))


def commands_of(value):
    """Names of commands, and their words behind the key."""
    if type(value) is bytes:
        return [("SET", [value])]
    if type(value) is dict:
        return grouped("HSET", [[field, value[field]] for field in sorted(value)])
    if type(value) is list:
        return grouped("RPUSH", [[item] for item in value])
    if type(value) is set:
        return grouped("SADD", [[member] for member in sorted(value)])
    return grouped("ZADD", [[b"%d" % value[member], member] for member in sorted(value)])


def grouped(name, items):
    some = [items[at : at + MOST_ITEMS] for at in range(0, len(items), MOST_ITEMS)]
    return [(name, [word for item in it for word in item]) for it in some]


EFFECTS = {
    b"SET": Entries.set,
    b"MSET": Entries.mset,
    b"APPEND": Entries.append,
    b"SETRANGE": Entries.set_range,
    b"INCRBY": Entries.increase,
    b"DEL": Entries.delete,
    b"FLUSHALL": Entries.clear,
    b"PING": Entries.ping,
    b"PEXPIREAT": Entries.expire,
    b"PERSIST": Entries.persist,
    b"RENAME": Entries.rename,
    b"HSET": Entries.set_fields,
    b"HDEL": Entries.remove_fields,
    b"LPUSH": Entries.push_left,
    b"RPUSH": Entries.push_right,
    b"LPOP": Entries.pop_left,
    b"RPOP": Entries.pop_right,
    b"LSET": Entries.set_item,
    b"LINSERT": Entries.insert,
    b"LREM": Entries.remove_items,
    b"LTRIM": Entries.trim,
    b"LMOVE": Entries.move_item,
    b"SADD": Entries.add_members,
    b"SREM": Entries.remove_members,
    b"SMOVE": Entries.move_member,
    b"ZADD": Entries.set_scores,
    b"ZREM": Entries.remove_scores,
}


# ---- the follower


class PlainFollower:
    """What a replica's end of its master's link does, as `rehearse_values` tells it."""

    def __init__(self):
        self.held, self.offset, self.kept, self.taken, self.phase = Entries(), 0, b"", None, None

    def begin(self, port, offer=None):
        self.port, self.offer, self.kept, self.taken, self.phase = port, offer, b"", None, "ping"
        return "says " + request("PING").hex()

    def feed(self, data):
        self.kept += data
        return "fed"

    def step(self):
        try:
            return getattr(self, "in_" + self.phase)()
        except Wanted:
            return "idle"
        except Refused as why:
            return "refuses: %s" % why

    def shows(self):
        return "shows %s %d %s %s" % (self.phase, self.offset, self.kept.hex() or "-", self.held.texts().hex() or "-")

    def use(self, count, phase):
        self.kept, self.phase = self.kept[count:], phase

    def status(self):
        mark, text, used = line_at(self.kept)
        if mark == b"-":
            raise Refused("refused by the master")
        if mark != b"+":
            raise Refused("bad line")
        return text, used

    def says(self, phase, *words):
        _, used = self.status()
        self.use(used, phase)
        return "says " + request(*words).hex()

    def in_ping(self):
        return self.says("port", "REPLCONF", "listening-port", str(self.port))

    def in_port(self):
        return self.says("capabilities", "REPLCONF", "capa", "eof", "capa", "psync2")

    def in_capabilities(self):
        if self.offer:
            return self.says("psync", "PSYNC", self.offer, str(self.offset + 1))
        return self.says("psync", "PSYNC", "?", "-1")

    def in_psync(self):
        text, used = self.status()
        if text[:9] == b"CONTINUE " and is_id(text[9:]) and self.offer:
            self.use(used, "stream")
            return "continues %s %d" % (text[9:].decode(), self.offset)
        if text[:11] == b"FULLRESYNC " and is_id(text[11:51]) and text[51:52] == b" " and is_count(text[52:]):
            self.announced = int(text[52:])
            self.use(used, "snapshot")
            return "announces %s %d" % (text[11:51].decode(), self.announced)
        raise Refused("bad line")

    def take_line(self):
        """Uses the line of a snapshot's length: nothing was made yet, and so many bytes are to come."""
        mark, text, used = line_at(self.kept)
        if mark == b"-":
            raise Refused("refused by the master")
        if mark == b"+":
            raise Refused("bad line")
        self.kept, self.taken = self.kept[used:], (Entries(), int(text))

    def in_snapshot(self):
        if self.taken is None:
            self.take_line()
        made, left = self.taken
        try:
            while left:
                words, length = command_at(self.kept[:left])
                made.apply(words)
                self.kept, left = self.kept[length:], left - length
                self.taken = made, left
        except Wanted:
            if len(self.kept) < left:
                raise
            raise Refused(UNDECODABLE) from None
        except Fault:
            raise Refused(UNDECODABLE) from None
        self.held, self.offset, self.taken = made, self.announced, None
        self.use(0, "stream")
        return "installs"

    def in_stream(self):
        room = MOST - self.offset
        try:
            effects, length = group_at(self.kept[:room])
            self.held.apply_group(effects)
        except Wanted:
            if len(self.kept) <= room:
                raise
            raise Refused(UNDECODABLE) from None
        except Fault:
            raise Refused(UNDECODABLE) from None
        except Torn:
            raise Refused(TORN) from None
        told = self.kept[:length]
        self.offset += length
        self.use(length, "stream")
        return "applies " + told.hex()
