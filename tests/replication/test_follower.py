"""A replica's end of its master's link: the handshake, the snapshot, the stream, and what is refused."""

import unittest

from tests.models.follower import TORN, PlainFollower
from tests.support.handshake import ANSWERS, CAPABILITIES, GREETED, NOTHING_TO_CONTINUE, PORT
from tests.support.program import request
from tests.support.rehearsal import effect
from tests.support.replies import CHAINED
from tests.support.requests import EXEC, MULTI, PAIR, PING, SET, SET_A, SET_B, framed
from tests.support.values import Playing, fed, spelled

A, B = "a" * 40, "b" * 40
MOST = 2**62
WHOLE = b"".join(ANSWERS)
PHASES = ["ping", "port", "capabilities", "psync", "snapshot", "stream"]
# what each of them is answered
HEARD = ["says " + PORT.hex(), "says " + CAPABILITIES.hex(), "says " + NOTHING_TO_CONTINUE.hex(), "announces %s 27" % A, "installs"]


def begun():
    return ("begin 0", "says " + PING.hex())


def shown(phase, offset, kept=b"", texts=b""):
    return ("shows", "shows %s %d %s %s" % (phase, offset, spelled(kept), spelled(texts)))


def synchronized():
    """The steps to a replica at (A, 27), in its stream."""
    return [begun(), fed(WHOLE), *[("step", heard) for heard in HEARD], shown("stream", 27, b"", SET)]


def asking(digits, offset):
    """The steps of a handshake up to its last line, of a replica that offers to go on."""
    wanted = request("PSYNC", digits, str(offset + 1))
    said = ["says " + line.hex() for line in (PORT, CAPABILITIES, wanted)]
    return [("offer %s 0" % digits, "says " + PING.hex()), fed(GREETED), *[("step", line) for line in said]]


def refuses(why):
    """A refusal, which comes again at each step, since nothing is used."""
    return [("step", "refuses: " + why)] * 2


class Synchronizing(Playing):
    def test_each_line_is_answered_by_the_next(self):
        self.assertEqual([len(line) for line in (PING, PORT, CAPABILITIES, NOTHING_TO_CONTINUE)], [14, 46, 59, 30])
        self.assertEqual([len(line) for line in ANSWERS], [7, 5, 5, 57, 5 + 27])
        steps = [begun()]
        for answer, heard in zip(ANSWERS, HEARD, strict=True):
            steps += [("step", "idle"), fed(answer), ("step", heard)]
        self.plays("follower", [*steps, ("step", "idle"), shown("stream", 27, b"", SET)])

    def test_a_port_is_named(self):
        self.plays("follower", [("begin 6380", "says " + PING.hex()), fed(ANSWERS[0]), ("step", "says " + request("REPLCONF", "listening-port", "6380").hex())])
        self.plays("follower", [("begin 65535", "says " + PING.hex()), fed(ANSWERS[0]), ("step", "says " + request("REPLCONF", "listening-port", "65535").hex())])

    def test_any_cut_leads_to_the_same_state(self):
        """Until the snapshot's last byte the replica shows what it showed."""
        ends = [sum(map(len, ANSWERS[:count])) for count in range(1, 6)]
        followers = []
        for cut in range(len(WHOLE) + 1):
            whole = sum(end <= cut for end in ends)
            # of a snapshot the line of its length is used as soon as it is there
            line = 5 if whole == 4 and cut >= ends[3] + 5 else 0
            kept = WHOLE[([0] + ends)[whole] + line : cut]
            before = [fed(WHOLE[:cut]), *[("step", heard) for heard in HEARD[:whole]], ("step", "idle")]
            held = (27, kept, SET) if whole == 5 else (0, kept, b"")
            rest = [fed(WHOLE[cut:]), *[("step", heard) for heard in HEARD[whole:]], ("step", "idle")]
            steps = [begun(), *before, shown(PHASES[whole], *held), *rest, shown("stream", 27, b"", SET)]
            # or the link breaks at the cut, and the next is synchronised from its first byte on
            followers += [steps, [begun(), *before, *synchronized()]]
        self.plays("follower", *followers)

    def test_bytes_come_one_by_one(self):
        steps = [begun()]
        for answer, heard in zip(ANSWERS, HEARD, strict=True):
            for byte in answer[:-1]:
                steps += [fed(bytes([byte])), ("step", "idle")]
            steps += [fed(answer[-1:]), ("step", heard)]
        self.plays("follower", [*steps, shown("stream", 27, b"", SET)])

    def test_a_snapshot_replaces_what_was_there(self):
        snapshot = effect("RPUSH l a b") + effect("HSET h f v") + effect("PEXPIREAT h 5")
        full = b"+FULLRESYNC %s 1000\r\n$%d\r\n" % (B.encode(), len(snapshot)) + snapshot
        texts = effect("HSET h f v") + effect("PEXPIREAT h 5") + effect("RPUSH l a b")
        self.plays("follower", [
            *synchronized(), begun(), fed(GREETED + full), *[("step", heard) for heard in HEARD[:3]],
            ("step", "announces %s 1000" % B), shown("snapshot", 27, full[full.index(b"$") :], SET), ("step", "installs"), shown("stream", 1000, b"", texts),
        ])

    def test_a_snapshot_cut_anywhere_shows_what_was_held_before(self):
        """Up to its last byte. Where the link breaks at the cut, the next line asks for the byte behind what is held."""
        lines = ["RPUSH l a b", "HSET h f v", "PEXPIREAT h 5", "SADD s m n", "ZADD z 1 m", "SET k w", "LPOP l 1", "DEL s", "PING"]
        left = ["HSET h f v", "PEXPIREAT h 5", "SET k w", "RPUSH l b", "ZADD z 1 m"]
        texts = [effect(line) for line in lines]
        data, made = b"".join(texts), b"".join(effect(line) for line in left)
        line = b"$%d\r\n" % len(data)
        starts = [len(line) + sum(map(len, texts[:count])) for count in range(len(texts) + 1)]
        steps = [*synchronized(), *asking(A, 27), fed(b"+FULLRESYNC %s 1000\r\n" % B.encode()), ("step", "announces %s 1000" % B)]
        sent, followers = line + data, []
        for cut in range(len(sent)):
            taken = max([start for start in starts if start <= cut], default=0)
            before = [fed(sent[:cut]), ("step", "idle"), shown("snapshot", 27, sent[taken:cut], SET)]
            rest = [fed(sent[cut:] + SET), ("step", "installs"), shown("stream", 1000, SET, made)]
            followers += [[*steps, *before, *rest], [*steps, *before, *asking(A, 27)]]
        self.plays("follower", *followers)

    def test_an_empty_snapshot_is_one(self):
        empty = b"+FULLRESYNC %s 0\r\n$0\r\n" % A.encode()
        heard = [*HEARD[:3], "announces %s 0" % A, "installs", "idle"]
        self.plays("follower", [begun(), fed(GREETED + empty), *[("step", it) for it in heard], shown("stream", 0)])


class Streaming(Playing):
    def test_effects_are_applied_one_at_a_step(self):
        texts = [effect("SET k w"), effect("PING"), effect("DEL k")]
        steps = [*synchronized(), fed(b"".join(texts))]
        steps += [("step", "applies " + texts[0].hex()), shown("stream", 54, texts[1] + texts[2], texts[0])]
        steps += [("step", "applies " + texts[1].hex()), shown("stream", 68, texts[2], texts[0])]
        steps += [("step", "applies " + texts[2].hex()), shown("stream", 88), ("step", "idle")]
        self.plays("follower", steps)

    def test_a_deadline_is_kept_until_its_key_is_deleted(self):
        texts = SET + effect("PEXPIREAT k 11000")
        self.assertEqual(len(texts), 64)
        snapshot = b"+FULLRESYNC %s 64\r\n$64\r\n" % A.encode() + texts
        heard = [*HEARD[:3], "announces %s 64" % A, "installs"]
        steps = [begun(), fed(GREETED + snapshot), *[("step", it) for it in heard], shown("stream", 64, b"", texts)]
        deleted = effect("DEL k")
        self.plays("follower", [*steps, fed(deleted), ("step", "applies " + deleted.hex()), shown("stream", 84)])

    def test_a_half_effect_is_asked_for_again(self):
        """A replica that was cut off asks for the byte behind the last whole effect."""
        more, followers = effect("SET k w"), []
        for cut in range(len(more)):
            cut_off = [fed(more[:cut]), ("step", "idle"), shown("stream", 27, more[:cut], SET)]
            goes_on = [fed(b"+CONTINUE %s\r\n" % A.encode() + more), ("step", "continues %s 27" % A), ("step", "applies " + more.hex())]
            followers.append([*synchronized(), *cut_off, *asking(A, 27), *goes_on, shown("stream", 54, b"", more)])
        self.plays("follower", *followers)

    def test_a_stream_goes_on_under_another_id(self):
        more = effect("SET k w")
        goes_on = [fed(b"+CONTINUE %s\r\n" % B.encode() + more), ("step", "continues %s 27" % B), ("step", "applies " + more.hex())]
        self.plays("follower", [*synchronized(), *asking(A, 27), *goes_on, shown("stream", 54, b"", more), *asking(B, 54)])

    def test_no_effect_leads_past_the_offset_limit(self):
        followers = []
        for offset, heard in ((MOST - 27, ["applies " + SET.hex(), "idle"]), (MOST - 26, ["refuses: undecodable stream"]), (MOST, ["refuses: undecodable stream"])):
            steps = [("at %d" % offset, "stands"), *asking(A, offset), fed(b"+CONTINUE %s\r\n" % A.encode()), ("step", "continues %s %d" % (A, offset))]
            followers.append([*steps, fed(SET), *[("step", it) for it in heard]])
        self.plays("follower", *followers)


class Grouping(Playing):
    """Two effects or more that stand between MULTI and EXEC are done all or not at all, and no offset within them is shown."""

    def test_a_group_is_done_with_its_last_byte_and_not_before(self):
        self.assertEqual((len(MULTI), len(EXEC), len(PAIR)), (15, 14, 83))
        followers = []
        for cut in range(len(PAIR)):
            before = [fed(PAIR[:cut]), ("step", "idle"), shown("stream", 27, PAIR[:cut], SET)]
            rest = [fed(PAIR[cut:]), ("step", "applies " + PAIR.hex()), ("step", "idle"), shown("stream", 110, b"", SET_A + SET_B + SET)]
            followers.append([*synchronized(), *before, *rest])
        self.plays("follower", *followers)

    def test_bytes_of_a_group_come_one_by_one(self):
        steps = synchronized()
        for at in range(len(PAIR) - 1):
            steps += [fed(PAIR[at : at + 1]), ("step", "idle"), shown("stream", 27, PAIR[: at + 1], SET)]
        self.plays("follower", [*steps, fed(PAIR[-1:]), ("step", "applies " + PAIR.hex()), shown("stream", 110, b"", SET_A + SET_B + SET)])

    def test_a_half_group_is_asked_for_again(self):
        """A replica that was cut off asks for the byte behind the last whole group, and what it had of the next is let go."""
        followers = []
        for cut in range(len(PAIR)):
            cut_off = [fed(PAIR[:cut]), ("step", "idle"), *asking(A, 27)]
            goes_on = [fed(b"+CONTINUE %s\r\n" % A.encode() + PAIR), ("step", "continues %s 27" % A), ("step", "applies " + PAIR.hex())]
            after = [shown("stream", 110, b"", SET_A + SET_B + SET), *asking(A, 110)]
            followers.append([*synchronized(), *cut_off, *goes_on, *after])
        self.plays("follower", *followers)

    def test_a_group_is_one_step_among_others(self):
        """Its effects are done in their order, and what each does is there for the next."""
        group = framed(effect("RPUSH l x y z"), effect("LPOP l 2"), effect("RENAME l m"), effect("DEL k"))
        texts = [effect("SET k w"), group, effect("PING"), effect("LPOP m 1"), PAIR]
        lefts = [effect("SET k w"), effect("RPUSH m z"), effect("RPUSH m z"), b"", SET_A + SET_B]
        steps, offset = [*synchronized(), fed(b"".join(texts))], 27
        for at, (text, left) in enumerate(zip(texts, lefts, strict=True)):
            offset += len(text)
            steps += [("step", "applies " + text.hex()), shown("stream", offset, b"".join(texts[at + 1 :]), left)]
        self.plays("follower", [*steps, ("step", "idle")])

    def test_groups_come_in_pieces_of_any_size(self):
        """Also such as end within one group and begin within the one before."""
        texts = [PAIR, framed(*(effect("APPEND k " + word) for word in "vwxyz")), SET_A, effect("PING"), framed(effect("DEL b"), effect("SADD s m")), PAIR]
        sent, ends = b"".join(texts), [sum(map(len, texts[:count])) for count in range(1, len(texts) + 1)]
        made, followers = SET_A + SET_B + effect("SET k vvwxyz") + effect("SADD s m"), []
        for size in range(1, len(sent) + 1):
            steps, taken = synchronized(), 0
            for at in range(0, len(sent), size):
                steps.append(fed(sent[at : at + size]))
                whole = sum(end <= at + size for end in ends)
                steps += [("step", "applies " + text.hex()) for text in texts[taken:whole]]
                steps += [("step", "idle"), *([shown("stream", 27, sent[: at + size], SET)] if not whole else [])]
                taken = whole
            followers.append([*steps, shown("stream", 27 + len(sent), b"", made)])
        self.plays("follower", *followers)

    def test_a_large_group_comes_in_many_pieces(self):
        """Twenty thousand effects, in pieces of a thousand bytes: none is done before the last piece."""
        words = ["%05d" % number for number in range(20_000)]
        sent = framed(*(effect("RPUSH l " + word) for word in words))
        self.assertEqual(len(sent), 15 + 20_000 * 33 + 14)
        steps, last = synchronized(), (len(sent) - 1) // 1000 * 1000
        for at in range(0, last, 1000):
            steps += [fed(sent[at : at + 1000]), ("step", "idle")]
        made = b"".join(effect("RPUSH l " + " ".join(words[at : at + 64])) for at in range(0, len(words), 64))
        before = shown("stream", 27, sent[:last], SET)
        self.plays("follower", [*steps, before, fed(sent[last:]), ("step", "applies " + sent.hex()), shown("stream", 27 + len(sent), b"", SET + made)])

    def test_a_group_of_long_words_comes_in_many_pieces(self):
        value = bytes(range(256)) * 1000
        sent = framed(request("SET", "k", value), request("APPEND", "k", value), SET_A)
        steps = synchronized()
        for at in range(0, len(sent), 10_000):
            steps += [fed(sent[at : at + 10_000]), ("step", "idle" if at + 10_000 < len(sent) else "applies " + sent.hex())]
        self.plays("follower", [*steps, shown("stream", 27 + len(sent), b"", SET_A + request("SET", "k", value + value))])

    def test_no_group_leads_past_the_offset_limit(self):
        """It is refused as soon as more bytes are there than there is room for, and no byte before."""
        followers = []
        for room in range(len(PAIR) + 1):
            steps = [("at %d" % (MOST - room), "stands"), *asking(A, MOST - room), fed(b"+CONTINUE %s\r\n" % A.encode())]
            steps += [("step", "continues %s %d" % (A, MOST - room)), fed(PAIR[:room])]
            if room < len(PAIR):
                steps += [("step", "idle"), fed(PAIR[room : room + 1]), *refuses("undecodable stream"), shown("stream", MOST - room, PAIR[: room + 1])]
            else:
                steps += [("step", "applies " + PAIR.hex()), ("step", "idle"), shown("stream", MOST, b"", SET_A + SET_B)]
            followers.append(steps)
        self.plays("follower", *followers)

    def test_a_group_of_which_a_later_effect_cannot_be_applied_is_torn(self):
        """With its last byte and not before. Its effects before that one are done, so the dataset is spent, and the offset is that before it."""
        followers = []
        for lines, left in TORN_GROUPS:
            sent = framed(*map(effect, lines))
            before = [fed(sent[:-1]), ("step", "idle"), shown("stream", 27, sent[:-1], SET)]
            torn = [fed(sent[-1:]), ("step", "refuses: " + TORN), shown("stream", 27, sent, b"".join(map(effect, left)))]
            followers.append([*synchronized(), *before, *torn])
        self.plays("follower", *followers)


# effects of which the first can be applied where `k` is a text, and a later one can't, and what those before that one leave
TORN_GROUPS = [
    (["SET a 1", "INCRBY k 1"], ["SET a 1", "SET k v"]),
    (["SET a 1", "LPUSH k x", "SET b 2"], ["SET a 1", "SET k v"]),
    (["DEL k", "PEXPIREAT k 5"], []),
    (["DEL none", "LPOP l 1"], ["SET k v"]),
    (["RPUSH l x y", "LPOP l 2", "LPOP l 1"], ["SET k v"]),
    (["SET k 9223372036854775806", "INCRBY k 1", "INCRBY k 1"], ["SET k 9223372036854775807"]),
    (["FLUSHALL", "RENAME k l", "SET k w"], []),
    (["SADD s m", "SMOVE s k m"], ["SET k v", "SADD s m"]),
]
# what no line may be, wherever one is waited for
NO_LINES = [
    b":1\r\n",
    b"PONG\r\n",
    b"\r\n",
    b"*1\r\n$4\r\nPING\r\n",
    b"+PONG\n",
    b"+PO\rNG\r\n",
    b"+" + b"x" * 1024,
    b"$-1\r\n",
    b"$01\r\n",
    b"$%d\r\n" % (MOST + 1),
    b"$\r\n",
]
# a line may have so many bytes before its end
LONGEST = b"+" + b"x" * 1023 + b"\r\n"
# what answers PSYNC no more than a line of another kind
NO_ANSWERS = [
    b"+OK\r\n",
    b"+\r\n",
    b"$0\r\n",
    LONGEST,
    b"+CONTINUE %s\r\n" % (b"a" * 39),
    b"+CONTINUE %s\r\n" % (b"a" * 41),
    b"+CONTINUE %s\r\n" % (b"A" * 40),
    b"+CONTINUE\r\n",
    b"+continue %s\r\n" % (b"a" * 40),
    b"+CONTINUE %s 27\r\n" % (b"a" * 40),
    b"+FULLRESYNC %s\r\n" % (b"a" * 40),
    b"+FULLRESYNC %s 027\r\n" % (b"a" * 40),
    b"+FULLRESYNC %s -1\r\n" % (b"a" * 40),
    b"+FULLRESYNC %s %d\r\n" % (b"a" * 40, MOST + 1),
    b"+FULLRESYNC %s 27\r\n" % (b"a" * 39),
]
# what no snapshot is
NO_SNAPSHOTS = [
    b"abc",
    SET + b"x",
    SET[:-1],
    SET + b"\r\n",
    b"x" + SET,
    b"*1\r\n$3\r\nFOO\r\n",
    effect("SET k"),
    effect("set k v"),
    effect("GET k"),
    SET + effect("LPUSH k a"),
    effect("PERSIST k"),
    b"SET k v\r\n",
    b"*0\r\n",
    request("SET", "k", "v")[:-2] + b"\n\n",
    PAIR,
    SET + PAIR,
    MULTI,
    EXEC,
    # notes stand in files alone
    b"#",
    b"#\n" + SET,
    SET + b"#TS:5\r\n",
]
# what no effect of a stream is, where `k` is a text
NO_EFFECTS = [
    b"*1\r\n$3\r\nFOO\r\n",
    effect("LPUSH k 1"),
    effect("LPOP k 1"),
    effect("GET k"),
    effect("set k w"),
    effect("SET k w PXAT 0"),
    effect("LPOP l 1"),
    effect("RENAME x y"),
    effect("INCRBY k 1"),
    b"SET k w\r\n",
    b"*0\r\n",
    b"*-1\r\n",
    b"\r\n",
    b"+OK\r\n",
    b"-ERR no\r\n",
    b"#",
    b"*1\r\n+",
    b"*01\r\n",
    b"*1\r\n$4\r\nPINGxx",
    b"*1048577",
    b"*1\r\n$536870913",
]


# what no group of a stream is, where `k` is a text: each is found to be none with its last byte
NO_GROUPS = [
    EXEC,
    request("DISCARD"),
    request("multi"),
    request("MULTI", "x"),
    framed(),
    framed(SET),
    framed(effect("INCRBY k 1")),
    MULTI + PING,
    MULTI + SET_A + PING,
    MULTI + SET_A + SET_B + PING,
    MULTI + MULTI,
    MULTI + SET_A + SET_B + MULTI,
    MULTI + request("FOO"),
    MULTI + SET_A + request("GET", "k"),
    MULTI + SET_A + SET_B + request("DISCARD"),
    MULTI + SET_A + SET_B + request("exec"),
    MULTI + SET_A + SET_B + request("EXEC", "x"),
    MULTI + effect("set k w"),
    MULTI + effect("SET k w PXAT 0"),
    MULTI + SET_A + effect("LSET l -1 x"),
    MULTI + SET_A + effect("SADD s"),
    MULTI + b"S",
    MULTI + b"\r",
    MULTI + SET_A + b"+",
    MULTI + b"#",
    MULTI + SET_A + SET_B + b"#",
    MULTI + SET_A + b"*0",
    MULTI + SET_A + b"*1\r\n+",
    MULTI + SET_A + SET_B + b"*1\r\n$4\r\nEXECx",
    # the first effect can't be applied, whatever is behind it
    framed(effect("INCRBY k 1"), SET_A),
    framed(effect("LPUSH k x"), effect("DEL k"), SET_A),
    framed(effect("LPOP l 1"), effect("RPUSH l x")),
    framed(effect("RENAME x y"), effect("RENAME x y")),
    framed(effect("PERSIST none"), SET_A, SET_B),
]


class Refusing(Playing):
    """A refusal uses nothing, and changes nothing."""

    def up_to(self, phase):
        """The steps to a phase."""
        count = PHASES.index(phase)
        return [begun(), fed(b"".join(ANSWERS[:count])), *[("step", heard) for heard in HEARD[:count]]]

    def refuses_each(self, phase, rows, why):
        """Each of these is refused there: behind all of its bytes, and at every cut where a plain follower does."""
        shows = (27, SET) if phase == "stream" else (0, b"")
        followers = [[*self.up_to(phase), fed(data), *refuses(why), shown(phase, shows[0], self.kept_of(phase, data), shows[1])] for data in rows]
        for data in rows:
            for cut in range(min(len(data), 100)):
                steps = [*self.up_to(phase), *self.cut_at(phase, data, cut)]
                self.assertEqual(steps[-1][1], "refuses: " + why)
                followers.append(steps)
        self.plays("follower", *followers)

    def plain_in(self, phase):
        """A plain follower in this phase."""
        plain, count = PlainFollower(), PHASES.index(phase)
        plain.begin(0)
        plain.feed(b"".join(ANSWERS[:count]))
        for _ in range(count):
            plain.step()
        return plain

    def kept_of(self, phase, data):
        """What a plain follower keeps of these bytes: of a snapshot what is behind its line and its good effects."""
        plain = self.plain_in(phase)
        plain.feed(data)
        plain.step()
        return plain.kept

    def cut_at(self, phase, data, cut):
        """The steps that a plain follower makes, in this phase, of these bytes in two pieces."""
        plain, steps = self.plain_in(phase), []
        for piece in (data[:cut], data[cut:]):
            steps += [("feed " + spelled(piece), plain.feed(piece)), ("step", plain.step())]
        return steps

    def test_what_is_no_line_is_refused_wherever_one_is_waited_for(self):
        for phase in ("ping", "port", "capabilities", "psync", "snapshot"):
            self.refuses_each(phase, NO_LINES, "bad line")

    def test_a_refusal_is_one_wherever_a_line_is_waited_for(self):
        for phase in ("ping", "port", "capabilities", "psync", "snapshot"):
            self.refuses_each(phase, [CHAINED, b"-\r\n"], "refused by the master")

    def test_any_answer_brings_the_next_line_of_the_handshake_but_a_length(self):
        for phase, heard in zip(("ping", "port", "capabilities"), HEARD):
            self.refuses_each(phase, [b"$0\r\n", b"$27\r\n"], "bad line")
            lines = (b"+\r\n", b"+no\r\n", LONGEST, ANSWERS[3])
            self.plays("follower", *[[*self.up_to(phase), fed(line), ("step", heard)] for line in lines])

    def test_another_answer_to_psync_is_refused(self):
        self.refuses_each("psync", NO_ANSWERS, "bad line")

    def test_nothing_goes_on_that_was_not_offered(self):
        self.refuses_each("psync", [b"+CONTINUE %s\r\n" % A.encode()], "bad line")

    def test_an_answer_in_the_place_of_a_length_is_refused(self):
        self.refuses_each("snapshot", [b"+OK\r\n", LONGEST, ANSWERS[3]], "bad line")

    def test_a_snapshot_that_makes_no_dataset_is_refused_with_its_last_byte_at_the_latest(self):
        rows = [b"$%d\r\n" % len(texts) + texts for texts in NO_SNAPSHOTS]
        self.refuses_each("snapshot", rows, "undecodable stream")

    def test_what_is_no_effect_is_refused_as_soon_as_it_is_found(self):
        """However much of the snapshot is to come, and behind what made a dataset."""
        begun_so = [*self.up_to("snapshot"), fed(b"$5000000\r\n" + SET), ("step", "idle"), shown("snapshot", 0)]
        self.plays("follower", *[[*begun_so, fed(it), *refuses("undecodable stream"), shown("snapshot", 0, it)] for it in NO_EFFECTS])

    def test_no_more_is_kept_of_a_snapshot_than_the_beginning_of_one_command(self):
        texts = [effect("SET %s v" % letter) for letter in "abc"]
        data, size = b"".join(texts), sum(map(len, texts))
        steps = self.up_to("snapshot") + [fed(b"$%d\r\n" % size), ("step", "idle"), shown("snapshot", 0)]
        for at in range(size - 1):
            steps += [fed(data[at : at + 1]), ("step", "idle"), shown("snapshot", 0, data[at - at % 27 : at + 1] if (at + 1) % 27 else b"")]
        self.plays("follower", [*steps, fed(data[-1:] + texts[0]), ("step", "installs"), shown("stream", 27, texts[0], data)])

    def test_of_a_large_snapshot_no_more_is_kept_than_the_beginning_of_one_command(self):
        """A thousand commands of 27 bytes, in pieces of 1,000. What was held is shown until the last byte."""
        texts = [effect("SET %s v" % letter) for letter in "abcdefghij"]
        data, size = b"".join(texts) * 100, 27_000
        self.assertEqual(len(data), size)
        steps = [*synchronized(), *asking(A, 27), fed(b"+FULLRESYNC %s %d\r\n$%d\r\n" % (B.encode(), size, size))]
        steps += [("step", "announces %s %d" % (B, size)), ("step", "idle"), shown("snapshot", 27, b"", SET)]
        for end in range(1000, size, 1000):
            kept = data[end - end % 27 : end]
            self.assertLessEqual(len(kept), 26)
            steps += [fed(data[end - 1000 : end]), ("step", "idle"), shown("snapshot", 27, kept, SET)]
        self.plays("follower", [*steps, fed(data[-1000:]), ("step", "installs"), shown("stream", size, b"", b"".join(texts))])

    def test_a_bad_snapshot_leaves_the_dataset(self):
        bad = b"+FULLRESYNC %s 5\r\n" % B.encode()
        steps = [*synchronized(), *asking(A, 27), fed(bad + b"$3\r\nabc"), ("step", "announces %s 5" % B), *refuses("undecodable stream")]
        self.plays("follower", [*steps, shown("snapshot", 27, b"abc", SET)])

    def test_what_is_no_effect_here_is_refused(self):
        self.refuses_each("stream", NO_EFFECTS, "undecodable stream")

    def test_what_is_no_group_here_is_refused(self):
        self.refuses_each("stream", NO_GROUPS, "undecodable stream")

    def test_what_is_no_group_here_is_refused_as_soon_as_it_is_found(self):
        begun_so = [*self.up_to("stream"), shown("stream", 27, b"", SET)]
        found = [[fed(it[:-1]), ("step", "idle"), fed(it[-1:]), *refuses("undecodable stream"), shown("stream", 27, it, SET)] for it in NO_GROUPS]
        self.plays("follower", *[[*begun_so, *steps] for steps in found])

    def test_groups_before_a_bad_one_stand(self):
        for bad in NO_GROUPS:
            if bad.endswith(EXEC):
                continue
            steps = [*synchronized(), fed(PAIR + bad), ("step", "applies " + PAIR.hex()), *refuses("undecodable stream")]
            self.plays("follower", [*steps, shown("stream", 110, bad, SET_A + SET_B + SET)])

    def test_effects_before_a_bad_one_stand(self):
        good = effect("SET k w")
        steps = [*synchronized(), fed(good + NO_EFFECTS[0]), ("step", "applies " + good.hex()), *refuses("undecodable stream")]
        self.plays("follower", [*steps, shown("stream", 54, NO_EFFECTS[0], good)])

    def test_a_bad_line_leaves_what_was_offered(self):
        bad = b"+CONTINUE %s\r\n" % (b"a" * 39)
        steps = [*synchronized(), *asking(A, 27), fed(bad), *refuses("bad line"), shown("psync", 27, bad, SET)]
        self.plays("follower", [*steps, *asking(A, 27)])


if __name__ == "__main__":
    unittest.main()
