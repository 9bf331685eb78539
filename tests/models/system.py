"""Servers as they are described, each with its loop, its file and its clock, and the connections between them and to clients: what `rehearse_systems` is compared with.

A part of the slow, plain model in `world.py`. Data are small here: no turn meets a limit but that on what waits to be delivered, and memory is never short."""

from tests.models.dataset import Given, load, rebuild
from tests.models.node import CLOSED, IDLE, Append, Close, Follow, Halt, Node, NodeFault, Replace, Send, Used

SERVERS, FIRST_PORT = 3, 7000
OPENER, OTHER = "opener", "other"
ACROSS = {OPENER: OTHER, OTHER: OPENER}
OPEN, ENDED, BROKEN = "open", "ended", "broken"
NOBODY, CLIENT, WAITING, ASKING = "nobody", "client", "waiting", "asking"
MOST_MOMENT = 2**61
MOST_BACKLOG = 2**30
# of a turn: how many links it accepts, and how many bytes it reads of a connection at once, and how often
MOST_ACCEPTED, MOST_READ, MOST_PIECES = 64, (1024, 4096, 16_384, 65_536), 64
TICKS, DELETED = 16, 64
# between dials that lead to no stream, in milliseconds
LEAST_WAIT, MOST_WAIT = 100, 5_000


def hexadecimal(data):
    return data.hex() or "-"


def bytes_of(word):
    return b"" if word == "-" else bytes.fromhex(word)


# ---- a server


class Patience:
    """When the master was dialled last, for how long it is left alone after that, and after the next dial."""

    def __init__(self):
        self.last, self.wait, self.next = None, LEAST_WAIT, LEAST_WAIT

    def may_dial(self, now):
        return self.last is None or now <= self.last or now - self.last >= self.wait

    def note(self, now):
        if self.last is None or self.last < now:
            self.wait, self.next = self.next, min(2 * self.next, MOST_WAIT)
        self.last = now

    def trust(self):
        self.wait = self.next = LEAST_WAIT


class End:
    """A server's end of a connection: the node's link, None once the node closed it; what waits to be written, and how much more can be; what was delivered and isn't
    read, and what stands behind that."""

    def __init__(self, link, room):
        self.link, self.waiting, self.room = link, b"", room
        self.unread, self.rest = b"", OPEN


class Server:
    """A server that runs. Ends are named by the numbers of their connections, and the sides."""

    def __init__(self, number, file, is_replica, first, backlog, syncs, most):
        held, used = load(file)
        self.file, self.synced, self.batch, self.syncs, self.most = file[:used], 0, b"", syncs, most
        self.now, self.words, self.next_id = 0, 0, first
        self.node = Node(self.id(), held, is_replica, FIRST_PORT + number, backlog)
        self.ends, self.asking, self.patience = {}, [], Patience()
        self.is_over = self.is_halted = False

    # ---- what it is given

    def id(self):
        self.next_id += 1
        return b"%040x" % (self.next_id - 1)

    def given(self):
        self.words += 1
        return Given(self.now, self.words - 1)

    # ---- a turn

    def turn(self, next_number):
        """What the turn tells; then what it dialled, accepted, wrote and closed."""
        self.opened, self.written, self.closed = [], {}, []
        if self.is_over:
            return "over"
        self.is_over, self.next_number = True, next_number
        self.fresh, self.steps, self.done, self.used = self.id(), 0, 0, 0
        try:
            self.acts()
        except NodeFault:
            self.node.file_failed()
            return "fault: out of memory"
        self.is_over = self.is_halted
        return "%s %d %d %d" % ("halted" if self.is_halted else "turned", self.steps, self.done, self.used)

    def acts(self):
        self.accept_all()
        for tip in sorted(self.ends):
            self.read(tip)
        self.send_all()
        self.dial()
        self.tick_all()
        self.send_all()
        for tip in [tip for tip, end in self.ends.items() if end.link is None and not end.waiting]:
            self.drop(tip)

    def accept_all(self):
        taken, self.asking = self.asking[:MOST_ACCEPTED], self.asking[MOST_ACCEPTED:]
        for number in taken:
            self.join((number, OTHER), self.node.open())
            self.opened.append("accepted %d" % number)

    def join(self, tip, link):
        self.ends[tip] = End(link, self.most)

    def read(self, tip):
        for piece in range(MOST_PIECES):
            end = self.ends.get(tip)
            if end is None or end.link is None:
                return
            if not end.unread:
                if end.rest == ENDED:
                    self.part(end.link)
                elif end.rest == BROKEN:
                    self.drop(tip)
                return
            most = MOST_READ[min(piece, 3)]
            self.node.feed(end.link, end.unread[:most])
            end.unread = end.unread[most:]
            self.step_all(end.link)

    def step_all(self, link):
        while self.node.unread(link):
            self.steps += 1
            done = self.node.step(link, self.given(), self.fresh)
            if done in (IDLE, CLOSED):
                return
            self.done += 1
            self.take(done)

    def take(self, outs):
        """Carries out what the node gave out."""
        for out in outs:
            if isinstance(out, Append):
                self.batch += out.data
            elif isinstance(out, Replace):
                self.file, self.batch = out.data, b""
                self.synced = len(self.file)
            elif isinstance(out, Send):
                self.send(out.link, out.data)
            elif isinstance(out, Close):
                self.part(out.link)
            elif isinstance(out, Follow):
                self.patience = Patience()
            elif isinstance(out, Halt):
                self.is_halted = True
        if any(isinstance(out, Used) for out in outs):
            self.used += 1
            self.fresh = self.id()

    def send(self, link, data):
        for end in self.ends.values():
            if end.link == link:
                end.waiting += data

    def part(self, link):
        """The node's end is closed: what waits is still written."""
        self.node.close(link)
        for end in self.ends.values():
            if end.link == link:
                end.link = None

    def drop(self, tip):
        end = self.ends.pop(tip)
        if end.link is not None:
            self.node.close(end.link)
        self.closed.append(tip)

    def send_all(self):
        """What waits for the file is appended, and then what waits on connections is written."""
        self.file, wrote, self.batch = self.file + self.batch, bool(self.batch), b""
        if wrote and self.syncs:
            self.synced = len(self.file)
        for tip, end in list(self.ends.items()):
            if end.waiting and end.rest == BROKEN:
                self.drop(tip)
            elif end.waiting and end.room:
                moved, end.waiting = end.waiting[: end.room], end.waiting[end.room :]
                end.room -= len(moved)
                self.written[tip] = self.written.get(tip, b"") + moved

    def dial(self):
        node = self.node
        if not node.waits():
            if node.role() == "connected":
                self.patience.trust()
            return
        if not node.host or not self.patience.may_dial(self.now):
            return
        self.patience.note(self.now)
        if node.host not in (b"localhost", b"127.0.0.1"):
            return
        tip = (self.next_number, OPENER)
        self.opened.append("dialled %d 127.0.0.1:%d" % (self.next_number, node.host_port))
        link, outs = node.dial()
        self.join(tip, link)
        self.dialled = (link, node.host_port)
        self.take(outs)

    def tick_all(self):
        for _ in range(TICKS + self.done // DELETED):
            outs = self.node.tick(self.given())
            self.take(outs)
            if not any(isinstance(out, Append) for out in outs):
                return

    # ---- what it shows

    def show(self):
        shown = self.node.shows()
        if not shown:
            return "stopped"
        id, offset = shown
        return "%s %s %d %s %d %d" % (self.node.role(), id.decode(), offset, hexadecimal(rebuild(self.node.held)), len(self.file), self.synced)


# ---- connections


class Connection:
    """A connection: which server is asked, who holds each end, and what is on its way to each, and whether no more will be."""

    def __init__(self, opener, to):
        self.to, self.holders = to, {OPENER: opener, OTHER: WAITING}
        self.ways, self.is_over = {OPENER: b"", OTHER: b""}, {OPENER: False, OTHER: False}

    def push(self, side, data):
        if self.holders[side] != NOBODY:
            self.ways[side] += data

    def close(self, side):
        self.holders[side], self.ways[side], self.is_over[ACROSS[side]] = NOBODY, b"", True

    def is_ended(self, side):
        return self.is_over[side] and not self.ways[side]


class System:
    """Servers, what the files of those keep that don't run, and connections. Who holds an end is a word, or a server's number."""

    def __init__(self):
        self.servers, self.files, self.connections = [None] * SERVERS, [b""] * SERVERS, []

    def answer(self, line):
        """What comes of the event that a line names."""
        name, number, *words = line.split(" ")
        if name in AT_SERVERS:
            return getattr(self, name)(int(number), *words)
        if int(number) >= len(self.connections):
            return "none"
        return getattr(self, name)(self.connections[int(number)], int(number), *words)

    # ---- at servers

    def start(self, number, role, first, backlog, sync, most):
        if number >= SERVERS or self.servers[number] or not 1 <= int(backlog) <= MOST_BACKLOG:
            return "refused"
        self.servers[number] = Server(number, self.files[number], role == "replica", int(first), int(backlog), sync == "always", int(most))
        return "started"

    def running(self, number):
        return self.servers[number] if number is not None and number < SERVERS else None

    def kill(self, number, count):
        server = self.running(number)
        if not server:
            return "down"
        self.files[number] = server.file[: server.synced + int(count)]
        self.servers[number] = None
        for connection in self.connections:
            for side, holder in list(connection.holders.items()):
                if holder == number:
                    connection.close(side)
                elif holder == ASKING and connection.to == number:
                    connection.holders[side] = WAITING
        return "killed %d" % len(self.files[number])

    def turn(self, number):
        server = self.running(number)
        if not server:
            return "down"
        told = [server.turn(len(self.connections)), *server.opened]
        for it in server.opened:
            name, opened, *address = it.split(" ")
            if name == "accepted":
                self.connections[int(opened)].holders[OTHER] = number
            else:
                self.connections.append(Connection(number, self.asked(int(address[0].partition(":")[2]))))
        for (opened, side), data in server.written.items():
            told.append("wrote %d %s %s" % (opened, side, hexadecimal(data)))
            self.connections[opened].push(ACROSS[side], data)
        for opened, side in server.closed:
            told.append("closed %d %s" % (opened, side))
            self.connections[opened].close(side)
        return ";".join(told)

    def asked(self, port):
        return port - FIRST_PORT if port >= FIRST_PORT else None

    def time(self, number, millis):
        server = self.running(number)
        if not server:
            return "down"
        server.now = max(server.now, min(int(millis), MOST_MOMENT))
        return "set"

    def show(self, number):
        server = self.running(number)
        return server.show() if server else "down"

    def client(self, number):
        self.connections.append(Connection(CLIENT, number))
        return "connection %d" % (len(self.connections) - 1)

    # ---- at connections

    def accept(self, connection, number):
        server = self.running(connection.to)
        if connection.holders[OTHER] != WAITING or not server:
            return "none"
        connection.holders[OTHER] = ASKING
        server.asking.append(number)
        return "accepted"

    def send(self, connection, number, data):
        if connection.holders[OPENER] != CLIENT:
            return "none"
        connection.push(OTHER, bytes_of(data))
        return "sent"

    def close(self, connection, number):
        if connection.holders[OPENER] != CLIENT:
            return "none"
        connection.close(OPENER)
        return "closed"

    def cut(self, connection, number):
        if set(connection.holders.values()) == {NOBODY}:
            return "none"
        for side, holder in list(connection.holders.items()):
            connection.close(side)
            if isinstance(holder, int):
                self.servers[holder].ends[number, side].rest = BROKEN
            elif holder == ASKING:
                self.servers[connection.to].asking.remove(number)
        return "cut"

    def deliver(self, connection, number, side, count):
        holder = connection.holders[side]
        if holder in (NOBODY, WAITING, ASKING) or not (connection.ways[side] or connection.is_over[side]):
            return "none"
        if connection.is_ended(side):
            if holder == CLIENT:
                connection.close(side)
            else:
                self.servers[holder].ends[number, side].rest = ENDED
            return "ended"
        taken = connection.ways[side][: int(count)]
        connection.ways[side] = connection.ways[side][len(taken) :]
        writer = connection.holders[ACROSS[side]]
        if isinstance(writer, int):
            self.servers[writer].ends[number, ACROSS[side]].room += len(taken)
        if holder == CLIENT:
            return "delivered " + hexadecimal(taken)
        self.servers[holder].ends[number, side].unread += taken
        return "delivered %d" % len(taken)


AT_SERVERS = ("start", "kill", "turn", "time", "show", "client")


def normal(told):
    """A turn's answer with what it opened, wrote and closed in one order, and what it wrote at one end as one."""
    counts, *parts = told.split(";")
    written, others = {}, []
    for part in parts:
        name, rest = part.split(" ", 1)
        if name == "wrote":
            tip, _, data = rest.rpartition(" ")
            written[tip] = written.get(tip, "") + data
        else:
            others.append(part)
    return [counts, *sorted(others), *sorted(written.items())]
