"""A node as it is described: clients and replicas that it serves, the master that it follows, its stream, ids and marks.

A part of the slow, plain model in `world.py`. Memory is never short here, so a node stops only where its file failed, past its links, or at a
group of its master's that can be applied in part."""

from typing import NamedTuple, Optional

from tests.models.dataset import PING, AskFault, Group, Undefined, apply, apply_all, checked, command_of, due, group_text, group_texts, next_group, plan, rebuild, strict
from tests.models.request import MOST_OF_A_TEXT, Bad, More, Skip, Wanted, Whole, byte_at, next_command, next_request
from tests.support.program import request
from tests.support.replies import (
    ABORTED, DISCARD_ALONE, EXEC_ALONE, INTEGER, NESTED, NOT_ALLOWED, OK, QUEUED, READONLY, SYNTAX, UNKNOWN, arity, array_of, bulk, number,
)

MOST_OFFSET = 2**62
MOST_LINKS = 2**62
NO_ID = b"0" * 40
HEARTBEAT, ACKNOWLEDGEMENT = 10_000, 1_000
# of a peer's line, its first byte with it, before the `\r`
MOST_OF_A_PEERS_LINE = 1_024
# of a port and of an address, as REPLCONF tells them
LONGEST = {b"LISTENING-PORT": 5, b"IP-ADDRESS": 255}
STARTED = b"+Background append only file rewriting started\r\n"
CHAINED = b"-ERR replicas are not chained\r\n"
LIMIT = b"-ERR offset limit\r\n"
# how the reply to too few or too many words begins
NO_ARITY = arity("").partition(b"''")[0]

# what an end of a link is to the node
CLIENT, REPLICA, MASTER = "client", "replica", "master"


def is_id(digits):
    return len(digits) == 40 and all(byte in b"0123456789abcdef" for byte in digits)


class NodeFault(Exception):
    """A call is refused: `stopped`, `no such link`, or `input full`."""


# ---- what a call gives out


class Grow(NamedTuple):
    # a list of effects each
    groups: list


class Append(NamedTuple):
    data: bytes


class Replace(NamedTuple):
    data: bytes


class Send(NamedTuple):
    link: int
    data: bytes


class Close(NamedTuple):
    link: int


class Used(NamedTuple):
    id: bytes


class Follow(NamedTuple):
    host: bytes
    port: int


class Halt(NamedTuple):
    pass


# what a step answers beside a list of outs
IDLE, CLOSED = "idle", "closed"


# ---- what a master sends

BAD_LINE, BY_THE_PEER, UNDECODABLE = "bad line", "refused by the peer", "undecodable"


class Refused(Exception):
    """What a master sent is refused, for one of these."""


def peers_line(data):
    """The first byte of the line at the front, what stands behind it, and the bytes after the line."""
    if byte_at(data, 0) not in b"+-$":
        raise Refused(BAD_LINE)
    at = 1
    while byte_at(data, at) not in b"\r\n":
        at += 1
        if at > MOST_OF_A_PEERS_LINE:
            raise Refused(BAD_LINE)
    for place, wanted in ((at, b"\r"), (at + 1, b"\n")):
        if byte_at(data, place) not in wanted:
            raise Refused(BAD_LINE)
    return data[:1], data[1:at], data[at + 2 :]


def status(data):
    """What the `+` line at the front says, and the bytes after it."""
    mark, told, rest = peers_line(data)
    if mark != b"+":
        raise Refused(BY_THE_PEER if mark == b"-" else BAD_LINE)
    return told, rest


def snapshot_line(data):
    """How many bytes the snapshot at the front has, and what is there of it and behind it."""
    mark, told, rest = peers_line(data)
    length = strict(told, 0, MOST_OFFSET)
    if mark != b"$" or length is None:
        raise Refused(BY_THE_PEER if mark == b"-" else BAD_LINE)
    return length, rest


def next_effect(held, data, is_whole=False):
    """How long the effect's text at the front is, and what the effect leaves of the dataset. With `is_whole` no more bytes come."""
    read = next_command(data)
    if isinstance(read, More) and not is_whole:
        raise Wanted
    if not isinstance(read, Whole):
        raise Refused(UNDECODABLE)
    try:
        return read.used, apply(held, read.words)
    except Undefined:
        raise Refused(UNDECODABLE) from None


# ---- the node


class End:
    """A node's end of a link: what the link is to it, what REPLCONF said, and the bytes that no step has used."""

    def __init__(self, kind):
        self.kind, self.unread, self.is_closed = kind, b"", False
        self.said, self.acknowledged = {}, 0
        # of a replica's: how many became one before it
        self.turn = 0
        # of a link to a master: of which line the answer is awaited, or else "snapshot" or "stream"; and what FULLRESYNC said
        self.phase, self.announced = "ping", None
        # of a client's: what it has begun and not ended, if it has
        self.transaction = None


class Transaction:
    """The requests that wait for the end, and whether nothing is done then."""

    def __init__(self):
        self.waiting, self.is_marked = [], False


class Node:
    def __init__(self, id, held, is_replica, port, backlog, limit=MOST_OFFSET):
        self.id, self.offset, self.second, self.second_offset = id, 0, NO_ID, -1
        self.held, self.is_replica, self.port, self.capacity, self.limit = held, is_replica, port, backlog, limit
        self.ring, self.is_stopped, self.mark = b"", False, None
        # whether it has something to continue
        self.offers = not is_replica
        self.host, self.host_port = b"", 0
        # by the names of the ends, in the order in which they were opened
        self.ends, self.opened = {}, 0
        # how many of them became a replica's
        self.turns = 0

    # ---- what it shows

    def first(self):
        return self.offset - len(self.ring) + 1

    def shows(self):
        return None if self.is_stopped else (self.id, self.offset)

    def open_ends(self, kind):
        return [link for link, end in self.ends.items() if end.kind == kind and not end.is_closed]

    def master_end(self):
        return next(iter(self.open_ends(MASTER)), None)

    def replica_ends(self):
        """Those whose PSYNC was answered."""
        return self.open_ends(REPLICA)

    def waits(self):
        return self.is_replica and self.master_end() is None

    def role(self):
        if not self.is_replica:
            return "master"
        if self.waits():
            return "connect"
        return "connected" if self.ends[self.master_end()].phase == "stream" else "sync"

    def room(self, link):
        """How many bytes the link takes now; None where it isn't there, infinity where there is no limit."""
        if self.is_stopped or link not in self.ends:
            return None
        end = self.ends[link]
        return float("inf") if end.is_closed or end.kind == MASTER else MOST_OF_A_TEXT - len(end.unread)

    def unread(self, link):
        return None if self.is_stopped or link not in self.ends else len(self.ends[link].unread)

    def info(self):
        if self.is_stopped:
            raise NodeFault("stopped")
        lines = [
            "# Replication",
            "role:%s" % ("slave" if self.is_replica else "master"),
            "connected_slaves:%d" % len(self.replica_ends()),
            "master_replid:%s" % self.id.decode(),
            "master_replid2:%s" % self.second.decode(),
            "master_repl_offset:%d" % self.offset,
            "second_repl_offset:%d" % self.second_offset,
            "repl_backlog_active:1",
            "repl_backlog_size:%d" % self.capacity,
            "repl_backlog_first_byte_offset:%d" % self.first(),
            "repl_backlog_histlen:%d" % len(self.ring),
        ]
        return "".join(line + "\r\n" for line in lines).encode()

    def told_role(self):
        """What ROLE answers."""
        if self.is_replica:
            return array_of(bulk("slave"), bulk(self.host), number(self.host_port), bulk(self.role()), number(self.offset))
        told = []
        # in the order in which they became replicas
        for end in sorted((self.ends[link] for link in self.replica_ends()), key=lambda it: it.turn):
            words = end.said.get(b"IP-ADDRESS", b""), end.said.get(b"LISTENING-PORT", b"0"), b"%d" % end.acknowledged
            told.append(array_of(*map(bulk, words)))
        return array_of(bulk("master"), number(self.offset), array_of(*told))

    # ---- calls

    def running(self):
        if self.is_stopped:
            raise NodeFault("stopped")

    def end(self, link):
        self.running()
        if link not in self.ends:
            raise NodeFault("no such link")
        return self.ends[link]

    def new_end(self, kind):
        self.running()
        if self.opened == MOST_LINKS:
            self.is_stopped = True
            raise NodeFault("stopped")
        self.opened += 1
        self.ends[self.opened] = End(kind)
        return self.opened

    def open(self):
        return self.new_end(CLIENT)

    def dial(self):
        """The name of the new end, and what it sends; for a node that waits."""
        link = self.new_end(MASTER)
        return link, [Send(link, request("PING"))]

    def feed(self, link, data):
        end = self.end(link)
        if len(data) > self.room(link):
            raise NodeFault("input full")
        if not end.is_closed:
            end.unread += data

    def close(self, link):
        self.ends.pop(link, None)

    def file_failed(self):
        self.is_stopped = True

    def step(self, link, given, fresh):
        """`IDLE`, `CLOSED`, or what it gives out."""
        end = self.end(link)
        if end.is_closed:
            return CLOSED
        return self.follow(link, end) if end.kind == MASTER else self.serve(link, end, given, fresh)

    def tick(self, given):
        """What it gives out as time passes. Where the offset's limit ends the deletions, the mark stays."""
        self.running()
        groups, is_cut = ([], False) if self.is_replica else self.fitting([it] for it in due(self.held, given.now))
        beats = not is_cut and self.passes_mark(given.now)
        if beats and not self.is_replica and self.fits([*groups, [PING]]):
            groups.append([PING])
        outs = self.extended(groups)
        if beats and self.is_replica:
            outs.append(Send(self.master_end(), request("REPLCONF", "ACK", str(self.offset))))
        return outs

    def passes_mark(self, now):
        """Whether a heartbeat or an acknowledgement is due, and the mark after that."""
        if self.mark is None or self.mark > now:
            self.mark = now
            return False
        is_heard = self.role() == "connected" if self.is_replica else bool(self.replica_ends())
        if not is_heard or now - self.mark < (ACKNOWLEDGEMENT if self.is_replica else HEARTBEAT):
            return False
        self.mark = now
        return True

    # ---- the stream

    def fitting(self, groups):
        """The groups before the first that would carry the offset past its limit, and whether there is such a one."""
        taken = []
        for group in groups:
            if not self.fits([*taken, group]):
                return taken, True
            taken.append(group)
        return taken, False

    def fits(self, groups):
        return self.offset + len(group_texts(groups)) <= self.limit

    def take(self, groups):
        """Applies the groups and adds their texts to the stream; what of it goes to the file is returned."""
        for group in groups:
            self.held = apply_all(self.held, group)
            self.extend(group_text(group))
        return group_texts(it for it in groups if it != [PING])

    def extend(self, told):
        """Puts these bytes behind the stream."""
        self.offset += len(told)
        self.ring = (self.ring + told)[-self.capacity :]

    def extended(self, groups):
        """Takes a master's groups, and tells the book, the file and each replica of them."""
        if not groups:
            return []
        filed = self.take(groups)
        outs = [Grow(groups)] + ([Append(filed)] if filed else [])
        return outs + [Send(link, group_texts(groups)) for link in self.replica_ends()]

    # ---- ends that it serves

    def closing(self, link):
        """Closes the link for its part: what comes on it is dropped."""
        self.ends[link].is_closed, self.ends[link].unread = True, b""
        return [Close(link)]

    def serve(self, link, end, given, fresh):
        read = next_request(end.unread)
        if isinstance(read, More):
            return IDLE
        if isinstance(read, Bad):
            told = [] if end.kind == REPLICA else [Send(link, b"-ERR Protocol error: %s\r\n" % read.fault.encode())]
            return told + self.closing(link)
        end.unread = end.unread[read.used :]
        if isinstance(read, Skip):
            return []
        if end.kind == REPLICA:
            return [] if self.acknowledges(end, read.words) else self.closing(link)
        try:
            return self.wait(link, end, read.words, given) if end.transaction else self.answer(link, read.words, given, fresh)
        except AskFault as fault:
            return [Send(link, *fault.args)]

    def acknowledges(self, end, words):
        """Whether the words are an acknowledgement, which is noted."""
        if len(words) != 3 or [word.upper() for word in words[:2]] != [b"REPLCONF", b"ACK"] or strict(words[2]) is None:
            return False
        end.acknowledged = strict(words[2])
        return True

    def answer(self, link, words, given, fresh):
        name = words[0].upper()
        if name in SERVER:
            wish = wish_of(words)
            return wish.does(self, link, words, fresh)
        reply, effects = self.planned(self.held, words, given)
        groups = [[it] for it in effects]
        if not self.fits(groups):
            return [Send(link, LIMIT)]
        return self.extended(groups) + [Send(link, reply)]

    def planned(self, held, words, given):
        """The reply to a command on data, and its effects here."""
        told = plan(held, words, given)
        if self.is_replica:
            return READONLY if told.writes else told.reply, []
        return told.reply, told.effects

    # ---- transactions

    def wait(self, link, end, words, given):
        """A request where a transaction is open. What is refused at once marks it, but for a second MULTI."""
        name, transaction = words[0].upper(), end.transaction
        try:
            writes = reads(words)
            if name in (b"REPLICAOF", b"SLAVEOF", b"PSYNC", b"REPLCONF", b"SHUTDOWN", b"BGREWRITEAOF"):
                raise AskFault(NOT_ALLOWED)
            if writes and self.is_replica:
                raise AskFault(READONLY)
        except AskFault as fault:
            (told,) = fault.args
            if told in (NOT_ALLOWED, READONLY, UNKNOWN) or told.startswith(NO_ARITY):
                transaction.is_marked = True
                raise
            # any other fault is told at the end
        else:
            if name == b"MULTI":
                return [Send(link, NESTED)]
            if name == b"QUIT":
                return self.quit(link, words, None)
            if name in (b"EXEC", b"DISCARD"):
                end.transaction = None
                return [Send(link, OK)] if name == b"DISCARD" else self.execute(link, transaction, given)
        transaction.waiting.append(words)
        return [Send(link, QUEUED)]

    def execute(self, link, transaction, given):
        """EXEC: what waited is done, each at the dataset that those before it left, and what they do is one group."""
        if transaction.is_marked:
            return [Send(link, ABORTED)]
        held, group, replies = self.held, [], []
        for words in transaction.waiting:
            try:
                reply, effects = self.done_at(held, link, words, given)
            except AskFault as fault:
                (reply,), effects = fault.args, []
            if effects and not self.fits([[*group, *effects]]):
                reply, effects = LIMIT, []
            held = apply_all(held, effects)
            group += effects
            replies.append(reply)
        return self.extended([group] if group else []) + [Send(link, array_of(*replies))]

    def done_at(self, held, link, words, given):
        """The reply to a request that waited, and its effects, at this dataset."""
        if words[0].upper() not in SERVER:
            return self.planned(held, words, given)
        ((_, reply),) = wish_of(words).does(self, link, words, None)
        return reply, []

    def begin(self, link, words, fresh):
        self.ends[link].transaction = Transaction()
        return [Send(link, OK)]

    def execute_alone(self, link, words, fresh):
        return [Send(link, EXEC_ALONE)]

    def discard_alone(self, link, words, fresh):
        return [Send(link, DISCARD_ALONE)]

    # ---- what is asked of the node

    def ping(self, link, words, fresh):
        return [Send(link, bulk(words[1]) if words[1:] else b"+PONG\r\n")]

    def echo(self, link, words, fresh):
        return [Send(link, bulk(words[1]))]

    def quit(self, link, words, fresh):
        return [Send(link, OK), *self.closing(link)]

    def inform(self, link, words, fresh):
        is_told = not words[1:] or words[1].lower() in (b"replication", b"all", b"default")
        return [Send(link, bulk(self.info() if is_told else b""))]

    def tell_role(self, link, words, fresh):
        return [Send(link, self.told_role())]

    def rewrite(self, link, words, fresh):
        return [Replace(rebuild(self.held)), Send(link, STARTED)]

    def shut_down(self, link, words, fresh):
        return [Halt()]

    def note(self, link, words, fresh):
        """REPLCONF."""
        end = self.ends[link]
        if self.acknowledges(end, words):
            return []
        # what is longer than a port or an address can be isn't kept
        end.said.update((name, text) for name, text in zip(options_of(words), words[2::2]) if len(text) <= LONGEST.get(name, 0))
        return [Send(link, OK)]

    def continues(self, id, wanted):
        is_known = id == self.id or (id == self.second and wanted <= self.second_offset)
        return is_known and self.first() <= wanted <= self.offset + 1

    def synchronize(self, link, words, fresh):
        """PSYNC."""
        wanted = strict(words[2])
        if self.is_replica:
            return [Send(link, CHAINED)]
        self.ends[link].kind, self.ends[link].turn = REPLICA, self.turns
        self.turns += 1
        if self.continues(words[1], wanted):
            return [Send(link, b"+CONTINUE %s\r\n" % self.id + self.ring[wanted - self.first() :])]
        snapshot = rebuild(self.held)
        return [Send(link, b"+FULLRESYNC %s %d\r\n$%d\r\n" % (self.id, self.offset, len(snapshot)) + snapshot)]

    # ---- roles

    def replicate(self, link, words, fresh):
        """REPLICAOF."""
        if is_no_one(words):
            return [Send(link, OK), *self.promote(fresh)]
        host, port = words[1], port_in(words)
        if self.is_replica and (host, port) == (self.host, self.host_port):
            return [Send(link, OK)]
        gone = self.open_ends(MASTER if self.is_replica else REPLICA)
        if not self.is_replica:
            self.is_replica, self.offers, self.mark = True, True, None
        self.host, self.host_port = host, port
        closed = [out for it in gone for out in self.closing(it)]
        return [Send(link, OK), *closed, Follow(host, port)]

    def promote(self, fresh):
        if not self.is_replica:
            return []
        closed = [out for it in self.open_ends(MASTER) for out in self.closing(it)]
        self.shift(fresh)
        self.is_replica, self.offers, self.mark = False, True, None
        return [*closed, Used(fresh)]

    def shift(self, id):
        """Goes on under another id; the old one stays good up to here."""
        self.second, self.second_offset, self.id = self.id, self.offset + 1, id

    # ---- the end at its master

    def follow(self, link, end):
        """A step on the link to the master. Nothing has changed where more bytes are wanted, and nothing but the link where they are refused."""
        try:
            return getattr(self, "in_" + end.phase)(link, end)
        except Wanted:
            return IDLE
        except Refused as why:
            if why.args == (UNDECODABLE,):
                self.offers = False
            return self.closing(link)

    def says(self, link, phase, *words):
        """Uses the answer to a line of the handshake, and says the next one."""
        end = self.ends[link]
        _, end.unread = status(end.unread)
        end.phase = phase
        return [Send(link, request(*words))]

    def in_ping(self, link, end):
        return self.says(link, "port", "REPLCONF", "listening-port", str(self.port))

    def in_port(self, link, end):
        return self.says(link, "capabilities", "REPLCONF", "capa", "eof", "capa", "psync2")

    def in_capabilities(self, link, end):
        wanted = (self.id, str(self.offset + 1)) if self.offers else ("?", "-1")
        return self.says(link, "psync", "PSYNC", *wanted)

    def in_psync(self, link, end):
        told, rest = status(end.unread)
        word, *told = told.split(b" ")
        if word == b"CONTINUE" and len(told) == 1 and is_id(told[0]) and self.offers:
            if told[0] != self.id:
                self.shift(told[0])
            end.phase = "stream"
        elif word == b"FULLRESYNC" and len(told) == 2 and is_id(told[0]) and strict(told[1], 0, MOST_OFFSET) is not None:
            end.phase, end.announced = "snapshot", (told[0], strict(told[1]))
        else:
            raise Refused(BAD_LINE)
        end.unread = rest
        return []

    def in_snapshot(self, link, end):
        length, taken = snapshot_line(end.unread)
        held, rest = {}, taken[:length]
        while rest:
            read, held = next_effect(held, rest, is_whole=len(taken) >= length)
            rest = rest[read:]
        if len(taken) < length:
            raise Wanted
        end.phase, end.unread = "stream", taken[length:]
        self.held, (self.id, self.offset) = held, end.announced
        self.second, self.second_offset, self.ring, self.offers = NO_ID, -1, b"", True
        return [Replace(rebuild(held))]

    def in_stream(self, link, end):
        group = next_group(end.unread)
        if isinstance(group, More):
            raise Wanted
        if not isinstance(group, Group) or self.offset + group.used > self.limit:
            raise Refused(UNDECODABLE)
        first, *others = group.effects
        try:
            held = apply(self.held, first)
        except Undefined:
            raise Refused(UNDECODABLE) from None
        try:
            self.held = apply_all(held, others)
        except Undefined:
            self.is_stopped = True
            raise NodeFault("stopped") from None
        told, end.unread = end.unread[: group.used], end.unread[group.used :]
        self.extend(told)
        return [Append(told)] if first != PING else []


# ---- what is asked of a node


def options_of(words):
    """What REPLCONF names."""
    return [word.upper() for word in words[1::2]]


def is_no_one(words):
    return [word.upper() for word in words[1:]] == [b"NO", b"ONE"]


def port_in(words):
    """The port that REPLICAOF names, if it is one."""
    return strict(words[2], 1, 65_535)


def read_saving(words):
    if words[1:] and (len(words) > 2 or words[1].upper() not in (b"SAVE", b"NOSAVE")):
        raise AskFault(SYNTAX)


def read_options(words):
    if options_of(words) == [b"ACK"] and len(words) == 3 and strict(words[2]) is not None:
        return
    if len(words) == 1 or len(words) % 2 == 0 or any(it not in (b"LISTENING-PORT", b"IP-ADDRESS", b"CAPA") for it in options_of(words)):
        raise AskFault(SYNTAX)


def read_offset(words):
    if strict(words[2]) is None:
        raise AskFault(INTEGER)


def read_master(words):
    if not is_no_one(words) and port_in(words) is None:
        raise AskFault(INTEGER)


class Wish(NamedTuple):
    """What does it, how many words it takes, and what reads them."""

    does: object
    least: int
    most: Optional[int]
    reads: object = lambda words: None


SERVER = {
    b"PING": Wish(Node.ping, 1, 2),
    b"ECHO": Wish(Node.echo, 2, 2),
    b"QUIT": Wish(Node.quit, 1, 1),
    b"INFO": Wish(Node.inform, 1, 2),
    b"ROLE": Wish(Node.tell_role, 1, 1),
    b"REPLICAOF": Wish(Node.replicate, 3, 3, read_master),
    b"SLAVEOF": Wish(Node.replicate, 3, 3, read_master),
    b"REPLCONF": Wish(Node.note, 1, None, read_options),
    b"PSYNC": Wish(Node.synchronize, 3, 3, read_offset),
    b"BGREWRITEAOF": Wish(Node.rewrite, 1, 1),
    b"SHUTDOWN": Wish(Node.shut_down, 1, None, read_saving),
    b"MULTI": Wish(Node.begin, 1, 1),
    b"EXEC": Wish(Node.execute_alone, 1, 1),
    b"DISCARD": Wish(Node.discard_alone, 1, 1),
}


def wish_of(words):
    """What these words ask of the node, which is no command on data."""
    wish = SERVER[words[0].upper()]
    checked(words, wish.least, wish.most)
    wish.reads(words)
    return wish


def reads(words):
    """Whether the words, which are those of a command, write."""
    if words[0].upper() in SERVER:
        wish_of(words)
        return False
    command, _ = command_of(words)
    return command.writes
