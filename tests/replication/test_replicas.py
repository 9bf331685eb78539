"""Servers that follow one another over TCP: copies, promotion and return, cut links, kills, files.

Wherever two nodes show one id and offset they hold one dataset, whatever happened before: each test looks at them as it goes on."""

import random
import re
import time
import unittest

from tests.support.handshake import GREETED, GREETS, NOTHING_TO_CONTINUE, PART, WHOLE
from tests.support.program import request
from tests.support.random_keys import RandomKeys
from tests.support.replicas import Played, Writes
from tests.support.replicating import NO_ID, Replicating, leads
from tests.support.replies import CHAINED, INTEGER, NIL, OK, READONLY, array, bulk, number, read
from tests.support.requests import FAR, PING, SET
from tests.support.server import HOST, MIB, free_port

LITTLE, MUCH = 64, 1 << 20
# a master with replicas writes one of 14 bytes into its stream every ten seconds
BEAT, BEAT_AFTER = len(PING), 10
# so many replicas are cut at once, so often each
CUT_REPLICAS, CUTS = 4, 24
# how many bytes the greatest word has, and a large one
MOST, LARGE = 512 * MIB, 20 * MIB
# so many ask for a copy at once, of values of so many bytes
TWENTY, PIECE = 20, 4096
# rounds with kills, what their choices are drawn by, and how much of its stream a node keeps then
ROUNDS, SEED, BACKLOGS = 200, 1, (LITTLE, 1 << 10, 1 << 16, MUCH)

# the end of a line that tells of a copy, and that of one of a master that isn't there
LENGTH, UNREACHED = re.compile(rb"in \d+\.\d s$"), b"not reached, or link lost in the handshake"

# a write of each type, one way to read it, and what is then read
TOLD = [
    ("SET text value", "GET text", bulk("value")),
    ("APPEND text +", "GET text", bulk("value+")),
    ("SET binary a\r\nb\0", "GET binary", bulk("a\r\nb\0")),
    ("MSET m1 a m2 b", "MGET m1 m2", array("a", "b")),
    ("INCRBY count -7", "GET count", bulk("-7")),
    ("HSET hash f 1 g 2", "HGETALL hash", array("f", "1", "g", "2")),
    ("HDEL hash f", "HGETALL hash", array("g", "2")),
    ("RPUSH list a b c", "LRANGE list 0 -1", array("a", "b", "c")),
    ("LMOVE list list LEFT RIGHT", "LRANGE list 0 -1", array("b", "c", "a")),
    ("SADD set m n", "SMEMBERS set", array("m", "n")),
    ("SREM set m", "SMEMBERS set", array("n")),
    ("ZADD zset 3 x -1 y", "ZRANGE zset 0 -1 WITHSCORES", array("y", "-1", "x", "3")),
    ("ZINCRBY zset 5 y", "ZRANGE zset 0 -1 WITHSCORES", array("x", "3", "y", "4")),
    ("PEXPIREAT text %d" % FAR, "PEXPIRETIME text", number(FAR)),
    ("SET late v PXAT %d" % (FAR + 1), "PEXPIRETIME late", number(FAR + 1)),
    ("PERSIST late", "PEXPIRETIME late", number(-1)),
    ("PEXPIREAT m1 1", "EXISTS m1", number(0)),
    ("RENAME m2 m3", "GET m3", bulk("b")),
    ("DEL m3", "EXISTS m2 m3", number(0)),
]
# a request of each kind of write, whatever it would do
WRITES = ["SET k v", "DEL none", "HSET h f v", "LPUSH l a", "SADD s m", "ZADD z 1 m", "PEXPIRE none 1", "FLUSHALL", "SET text value+"]


class Copies(Replicating):
    def test_writes_of_every_type_arrive(self):
        """Two replicas, of which one is told while it runs and held other keys, answer each read as the master does, and one as the other."""
        began = time.monotonic()
        master, told = self.node(), self.node()
        self.assertEqual(told.asks("MSET", "text", "old", "other", "old"), OK)
        started = self.node(follows=master.port)
        self.assertTrue(told.follow(master.port))
        size = 0
        for write, ask, reply in TOLD:
            self.assertNotEqual(master.asks(*write.split(" "))[:1], b"-", write)
            self.caught_up(master, started, told)
            for it in (master, started, told):
                self.assertEqual(it.asks(*ask.split(" ")), reply, ask)
        self.assertEqual(told.asks("EXISTS", "other"), number(0))
        held = self.caught_up(master, started, told).held
        self.assertEqual(set(held), {b"text", b"binary", b"count", b"hash", b"list", b"set", b"zset", b"late"})
        self.assertEqual(held[b"text"], (b"+string", b":%d" % FAR, b"value+"))
        # beside heartbeats the stream is the effects, as long as the commands that they are
        self.assertEqual(master.asks("FLUSHALL"), OK)
        size = master.said().offset
        self.assertEqual(master.asks("SET", "k", "v"), OK)
        self.assertIn(master.said().offset - size - 27, [BEAT * it for it in range(1 + int((time.monotonic() - began) // BEAT_AFTER))])
        self.caught_up(master, started, told)

    def test_a_snapshot_of_large_values(self):
        """A dataset of keys of any bytes and of collections of hundreds of items comes as a whole copy, and what is written behind it in the stream."""
        master, made = self.node(), RandomKeys(random.Random(5))
        master.asked.send(made.commands())
        for _ in made.written:
            self.assertNotEqual(master.asked.reply()[:1], b"-")
        value = random.Random(6).randbytes(3 << 20)
        self.assertEqual(master.asks("SET", "large", value), OK)
        replica = self.node(follows=master.port)
        self.assertEqual(master.asks("SETRANGE", "large", "1", "other"), number(len(value)))
        self.caught_up(master, replica)
        self.assertTrue(replica.asks("GET", "large") == bulk(value[:1] + b"other" + value[6:]))

    def test_a_replica_answers_readonly(self):
        """Writes are refused on a replica, also where they would change nothing, and change nothing; reads are answered; nobody follows it."""
        master, replica = self.node(), self.node()
        self.assertEqual(master.asks("SET", "text", "value+"), OK)
        self.assertTrue(replica.follow(master.port))
        held = self.caught_up(master, replica)
        for line in WRITES:
            self.assertEqual(replica.asks(*line.split(" ")), READONLY, line)
        self.assertEqual(replica.asks("GET", "text"), bulk("value+"))
        self.assertEqual(replica.asks("PSYNC", "?", "-1"), CHAINED)
        self.assertEqual(self.caught_up(master, replica), held)

    def test_what_they_tell_of_themselves(self):
        """INFO and ROLE of a master and two replicas, byte for byte, before and after a write."""
        master = self.node()
        self.assertEqual(master.asks("SET", "k", "v"), OK)
        id = master.said().id
        self.tells(master, offset=27, name=id)
        first = self.node(follows=master.port)
        self.caught_up(master, first)
        second = self.node(follows=master.port)
        self.caught_up(master, first, second)
        self.tells(master, offset=27, name=id, followers=2)
        for it in (first, second):
            # a whole copy leaves nothing in the backlog
            self.tells(it, role="slave", offset=27, name=id, first=28)
            self.follows(it, master.port)
        self.assertEqual(master.asks("SET", "k", "w"), OK)
        self.caught_up(master, first, second)
        self.tells(master, offset=54, name=id, followers=2)
        for it in (first, second):
            self.tells(it, role="slave", offset=54, name=id, first=28)
            self.follows(it, master.port)
        self.comes(lambda: master.asks("ROLE") == leads(54, (first, 54), (second, 54)))

    def test_expired_keys_wait_for_their_masters_deletion(self):
        """A key that expires is gone for readers on master and replica at its deadline, and its deletion comes by the stream."""
        master, replica = self.followed()
        self.assertEqual(master.asks("FLUSHALL"), OK)
        self.assertEqual(master.asks("SET", "k", "v", "PX", "200"), OK)
        deadline = int(master.asks("PEXPIRETIME", "k")[1:])
        offset = master.said().offset
        self.comes(lambda: replica.said().offset == offset)
        self.assertEqual(replica.asks("PEXPIRETIME", "k"), number(deadline))
        self.comes(lambda: time.time() * 1000 >= deadline)
        for it in (master, replica):
            self.assertEqual((it.asks("GET", "k"), it.asks("DBSIZE")), (NIL, number(0)))
        self.comes(lambda: replica.said().offset >= offset + len(request("DEL", "k")))
        self.caught_up(master, replica)


class CopiesAtOnce(Replicating):
    """Many replicas that ask for a whole copy while the master's dataset and stream stay as they are."""

    def asks(self, master, count):
        """So many that have nothing to continue, of which none reads its copy yet, and the length that is announced to all."""
        links = [self.client(master, room=1 << 16) for _ in range(count)]
        for it in links:
            it.send(GREETS + NOTHING_TO_CONTINUE)
        lengths = set()
        for it in links:
            self.assertEqual(it.receive(len(GREETED)), GREETED)
            self.assertTrue(it.taken(it.line(0)).startswith(WHOLE))
            lengths.add(int(it.taken(it.line(0))[1:]))
        self.assertEqual(len(lengths), 1, lengths)
        return links, lengths.pop()

    def gets(self, links, wanted):
        """Each of them gets these bytes next, but for heartbeats."""
        for it in links:
            taken = it.receive(len(wanted))
            while PING in taken:
                taken = taken.replace(PING, b"") + it.receive(len(PING))
            self.assertEqual(taken, wanted)

    def test_twenty_share_one_text(self):
        """Twenty copies of some 8 MiB wait at once, and the master's memory grows by less than four of them; each gets the whole one."""
        master = self.serve()
        client = self.client(master)
        for key in range(8 * MIB // PIECE):
            self.assertEqual(client.asks("SET", "key:%d" % key, "%d" % (key % 10) * PIECE), OK)
        before = master.peak()
        links, length = self.asks(master, TWENTY)
        self.assertGreater(length, 8 * MIB)
        self.assertLess(master.peak() - before, 4 * length)
        texts = {it.receive(length) for it in links}
        self.assertEqual([len(it) for it in texts], [length])
        self.assertLess(master.peak() - before, 4 * length)
        self.assertEqual(texts.pop().count(b"\r\nSET\r\n"), 8 * MIB // PIECE)

    def test_a_write_between_two_is_in_the_second_alone(self):
        """Who asks behind a write gets a text that has it, and who asked before gets the write behind the text."""
        master = self.serve()
        client = self.client(master)
        self.assertEqual(client.asks("SET", "k", "v" * MIB), OK)
        first, length = self.asks(master, 2)
        self.assertEqual(length, len(request("SET", "k", "v" * MIB)))
        write, last = request("SET", "k", "w"), request("SET", "k", "x")
        self.assertEqual(client.asks("SET", "k", "w"), OK)
        second, length = self.asks(master, 2)
        self.assertEqual(length, len(write))
        self.assertEqual(client.asks("SET", "k", "x"), OK)
        self.gets(first, request("SET", "k", "v" * MIB) + write + last)
        self.gets(second, write + last)


class Promotion(Replicating):
    def test_a_kill_a_promotion_and_a_return(self):
        """The other replica goes on from its new master by a part of the stream alone; the old master gets a whole copy when it returns."""
        master, first, second = self.followed(2)
        old = master.said()
        master.kill()
        self.comes(lambda: all(it.said().shows == old.shows for it in (first, second)))
        new, before = self.promoted(first), second.said()
        self.assertEqual(new.second, old.id)
        self.assertEqual(first.asks("SET", "after", "promotion"), OK)
        proxy = self.proxy(first)
        self.assertTrue(second.follow(proxy.port))
        self.caught_up(first, second)
        # the line names the new id, and what comes behind it is what was written since
        part = PART + new.id.encode() + b"\r\n" + request("SET", "after", "promotion")
        self.assertTrue(proxy.heard()[0].endswith(part), proxy.heard())
        after = second.said()
        self.assertEqual((after.id, after.second, after.second_offset), (new.id, old.id, old.offset + 1))
        # no whole copy: the backlog begins where it began
        self.assertEqual((after.first, after.held - before.held), (before.first, after.offset - before.offset))
        self.writes.play(first, 30)
        self.caught_up(first, second)
        returned = self.node(port=master.port)
        self.writes.play(returned, 5)
        self.assertNotIn(returned.said().id, (old.id, new.id))
        proxy = self.proxy(first)
        self.assertTrue(returned.follow(proxy.port))
        self.caught_up(first, second, returned)
        self.assertIn(WHOLE + new.id.encode(), proxy.heard()[0])
        # a whole copy leaves no id before
        self.assertEqual((returned.said().second, returned.said().second_offset), (NO_ID, -1))
        self.writes.play(first, 30)
        self.caught_up(first, second, returned)
        self.assertEqual(returned.asks("GET", "after"), first.asks("GET", "after"))

    def test_a_server_says_what_role_it_has_come_to(self):
        """On standard error: without its master's stream, by a whole copy in it, without it again as the link is lost, and a master of its own."""
        master = self.node()
        self.assertEqual(master.asks("SET", "k", "v"), OK)
        node = self.node(follows=master.port)
        found = self.caught_up(master, node)
        self.assertEqual(master.asks("SET", "k", "w"), OK)
        self.caught_up(master, node)
        ended = master.kill()
        self.comes(lambda: b"connected" not in node.asks("ROLE"))
        new = self.promoted(node)
        replica = b"replica of %s:%d, " % (HOST.encode(), master.port)
        copied = [b"not in its stream", b"whole copy begins", b"whole copy of 1 keys, 27 bytes, in S s", b"in its stream at offset %d" % found.shows[1]]
        told = [replica + it for it in (*copied, b"link lost in its stream", b"not in its stream")]
        # it is dialled again until then
        noticed = [LENGTH.sub(b"in S s", it) for it in node.told()[1:] if not it.endswith(UNREACHED)]
        self.assertEqual(noticed, told + [b"a master, at offset %d" % new.offset])
        # who never was a replica says nothing of it
        self.assertEqual(ended.notices[1:], [])

    def test_a_server_says_that_it_goes_on(self):
        """Behind a link that was cut no copy is needed, and from where the stream goes on is told."""
        master = self.node()
        proxy = self.proxy(master)
        node = self.node(follows=proxy.port)
        self.assertEqual(master.asks("SET", "k", "v"), OK)
        found = self.caught_up(master, node)
        proxy.lets_go.clear()
        proxy.links[-1].cut()
        self.comes(lambda: b"connected" not in node.asks("ROLE"))
        self.assertEqual(master.asks("SET", "k", "w"), OK)
        proxy.lets_go.set()
        self.caught_up(master, node)
        replica = b"replica of %s:%d, " % (HOST.encode(), proxy.port)
        lost, apart, goes_on, there = [it[len(replica) :] for it in node.told() if it.startswith(replica)][-4:]
        self.assertEqual((lost, apart), (b"link lost in its stream", b"not in its stream"))
        offsets = [int(said.removeprefix(text)) for text, said in ((b"goes on from offset ", goes_on), (b"in its stream at offset ", there))]
        # heartbeats may come in between
        self.assertGreaterEqual(offsets[0], found.shows[1])
        self.assertGreaterEqual(offsets[1], offsets[0])

    def demoted(self, writes):
        """A master that did so many writes which no replica has is told to follow the replica that was promoted: the proxy between, and both."""
        master, replica = self.followed()
        old = master.said()
        self.assertTrue(replica.promote())
        self.assertNotEqual(replica.said().id, old.id)
        for it in range(writes):
            self.assertEqual(master.asks("SET", "lost", "%d" % it), OK)
        self.assertEqual(replica.asks("SET", "kept", "v"), OK)
        proxy = self.proxy(replica)
        self.assertTrue(master.follow(proxy.port))
        self.caught_up(replica, master)
        self.assertEqual((master.asks("EXISTS", "lost"), master.asks("GET", "kept")), (number(0), bulk("v")))
        self.follows(master, proxy.port)
        return old, master, replica, proxy

    def test_a_master_that_obeys_goes_on_by_a_part(self):
        """Where it wrote nothing behind the promotion it gets what it misses alone, and knows its own id as the one before."""
        old, master, replica, proxy = self.demoted(0)
        self.assertIn(PART + replica.said().id.encode(), proxy.heard()[0])
        self.assertEqual((master.said().second, master.said().second_offset), (old.id, old.offset + 1))

    def test_a_master_that_obeys_loses_what_nobody_followed(self):
        """Where it wrote more it gets a whole copy, without what it wrote."""
        _, master, replica, proxy = self.demoted(3)
        self.assertIn(WHOLE + replica.said().id.encode(), proxy.heard()[0])
        self.assertEqual((master.said().second, master.said().second_offset), (NO_ID, -1))

    def test_who_is_ahead_of_the_promoted_gets_a_whole_copy(self):
        """A replica that has more of the old stream than the promoted one never goes on from there, also where the offsets then are the same."""
        master, ahead = self.followed()
        proxy = self.proxy(master)
        behind = self.node(follows=proxy.port)
        self.caught_up(master, ahead, behind)
        proxy.lets_go.clear()
        proxy.cut()
        self.assertEqual(master.asks("SET", "k", "v"), OK)
        self.caught_up(master, ahead)
        master.kill()
        proxy.close()
        new = self.promoted(behind)
        self.assertEqual(behind.asks("SET", "k", "w"), OK)
        self.assertEqual(behind.said().offset, ahead.said().offset)
        between = self.proxy(behind)
        self.assertTrue(ahead.follow(between.port))
        self.caught_up(behind, ahead)
        self.assertIn(WHOLE + new.id.encode(), between.heard()[0])
        self.assertEqual(ahead.asks("GET", "k"), bulk("w"))

    def test_who_is_behind_the_promoted_goes_on_by_a_part(self):
        """A replica that misses the end of the old stream gets it from the promoted one, under the new id."""
        master, promoted = self.followed()
        proxy = self.proxy(master)
        behind = self.node(follows=proxy.port)
        self.caught_up(master, promoted, behind)
        proxy.lets_go.clear()
        proxy.cut()
        self.writes.play(master, 10)
        self.assertEqual(master.asks("SET", "k", "v"), OK)
        self.caught_up(master, promoted)
        master.kill()
        proxy.close()
        new, before = self.promoted(promoted), behind.said()
        self.assertLess(before.offset, new.second_offset - 1)
        between = self.proxy(promoted)
        self.assertTrue(behind.follow(between.port))
        self.caught_up(promoted, behind)
        self.assertIn(PART + new.id.encode(), between.heard()[0])
        # each knows the old id up to where it went on under the new one
        self.assertEqual((behind.said().second, behind.said().second_offset), (new.second, before.offset + 1))
        self.assertEqual(behind.asks("GET", "k"), bulk("v"))

    def test_replicas_wait_for_a_master_that_is_none_for_a_while(self):
        """A master that becomes a replica sends its replicas nothing; once it is promoted again they come by themselves, and go on by a part."""
        master = self.node()
        self.writes.play(master, 30)
        proxy = self.proxy(master)
        replica = self.node(follows=proxy.port)
        held = self.caught_up(master, replica)
        self.assertTrue(master.follow(free_port()))
        self.comes(lambda: len(proxy.links) > 3)
        self.assertEqual(set(proxy.heard()[1:3]), {GREETED + CHAINED})
        self.assertEqual(self.looks(replica)[0], held)
        new = self.promoted(master)
        self.assertEqual(master.asks("SET", "k", "v"), OK)
        self.caught_up(master, replica)
        self.assertIn(PART + new.id.encode(), proxy.heard()[-1])
        self.assertEqual((replica.said().second, replica.said().second_offset), (held.shows[0], held.shows[1] + 1))

    def test_whom_it_follows_already_it_goes_on_to_follow(self):
        """The same request again is answered, and no link is opened for it; a request with a fault changes nothing."""
        master = self.node()
        proxy = self.proxy(master)
        replica = self.node(follows=proxy.port)
        self.writes.play(master, 30)
        self.caught_up(master, replica)
        self.assertTrue(replica.follow(proxy.port))
        self.assertEqual(replica.asks("SLAVEOF", HOST, str(proxy.port)), OK)
        for port in ("0", "65536", "x", "-1"):
            self.assertEqual(replica.asks("REPLICAOF", HOST, port), INTEGER)
        self.writes.play(master, 30)
        self.caught_up(master, replica)
        self.follows(replica, proxy.port)
        self.assertEqual(len(proxy.links), 1)

    def test_promotions_again_and_again(self):
        """Two nodes change their roles twenty times: each time by a part, under an id of its own, and no write is lost."""
        master, replica = self.followed()
        proxies, ids = {it: self.proxy(it) for it in (master, replica)}, {master.said().id}
        for at in range(20):
            self.writes.play(master, 3)
            self.assertEqual(master.asks("SET", "turn", "%d" % at), OK)
            self.caught_up(master, replica)
            count = len(proxies[replica].links)
            ids.add(self.promoted(replica).id)
            self.assertTrue(master.follow(proxies[replica].port))
            self.caught_up(replica, master)
            self.assertIn(PART, proxies[replica].heard()[count])
            self.assertEqual(master.asks("GET", "turn"), bulk("%d" % at))
            master, replica = replica, master
        self.assertEqual(len(ids), 21)


class Cuts(Replicating):
    """Links that are cut at any byte: the replica comes again by itself."""

    def begun(self, backlog):
        """A master with a backlog of so many bytes, and replicas that follow it through a proxy each."""
        master = self.node(backlog=backlog)
        self.writes.play(master, 30)
        proxies = [self.proxy(master) for _ in range(CUT_REPLICAS)]
        nodes = [self.node(follows=it.port, backlog=backlog) for it in proxies]
        self.caught_up(master, *nodes)
        return master, proxies, nodes

    def cut(self, chance, master, proxies, waits):
        """Writes while links are cut within what the master says, as it goes on or as it begins anew, or within what the replica says. How many links there
        were of each proxy."""
        counts = [len(it.links) for it in proxies]
        for proxy in proxies:
            proxy.cuts = [next_cut(chance) for _ in range(chance.randrange(4))]
            if waits:
                proxy.lets_go.clear()
                proxy.links[-1].cut()
            else:
                proxy.links[-1].cut_after(chance.choice((0, chance.randrange(400))))
        self.writes.play(master, chance.randint(1, 8))
        # its effect alone is more than the little backlog has
        self.assertEqual(master.asks("SET", "last", chance.randbytes(LITTLE)), OK)
        for proxy in proxies:
            proxy.lets_go.set()
        return counts

    def cut_again_and_again(self, backlog):
        """Behind each round they are caught up. What the master said to replicas that came again, on each link: in all rounds, and on those of each proxy in
        each round in which links waited until the writes were done."""
        master, proxies, nodes = self.begun(backlog)
        began = [len(it.links) for it in proxies]
        chance, waited = random.Random(self.id()), []
        for at in range(CUTS):
            waits = at % 2 == 0
            counts = self.cut(chance, master, proxies, waits)
            self.caught_up(master, *nodes)
            if not waits:
                # a cut that is still to come ends with this round
                for proxy in proxies:
                    proxy.cut_no_more()
                continue
            for proxy, count in zip(proxies, counts):
                waited.append(proxy.heard()[count:])
        self.assertTrue(all(it.said().role == "slave" for it in nodes))
        return [heard for proxy, count in zip(proxies, began) for heard in proxy.heard()[count:]], waited

    def test_with_a_little_backlog(self):
        """Whoever missed more than 64 bytes gets a whole copy, cut or not."""
        _, waited = self.cut_again_and_again(LITTLE)
        for links in waited:
            self.assertTrue(any(WHOLE in it for it in links), links)

    def test_with_a_large_backlog(self):
        """Nobody gets a second whole copy: all that is ever said is the rest of the stream."""
        heard, waited = self.cut_again_and_again(MUCH)
        self.assertFalse([it for it in heard if WHOLE in it])
        for links in waited:
            self.assertTrue(any(PART in it for it in links), links)

    def test_each_byte_of_a_whole_copy(self):
        """Links that are cut behind each byte in turn of the handshake and the snapshot: before its last byte the replica holds what it held, under its own
        id, and behind it the copy."""
        master = self.node()
        self.assertEqual(master.asks("SET", "k", "v"), OK)
        id = master.said().id
        # on a slow machine heartbeats come in between: of them the offset tells alone
        copies = {at: GREETED + WHOLE + id.encode() + b" %d\r\n$27\r\n" % at + SET for at in range(27, 100, BEAT)}
        size = len(copies[27])
        nodes = [self.node() for _ in range(8)]
        for first in range(0, size + 1, len(nodes)):
            begun = [(it, *self.begins_anew(it, master, cut)) for it, cut in zip(nodes, range(first, size + 1))]
            for cut, (it, proxy, held) in enumerate(begun, first):
                # it has dialled again, and is kept waiting
                self.comes(lambda: len(proxy.links) > 1)
                look = self.looks(it)[0]
                wanted = [(held.shows, held.held)] if cut < size else [((id, at), {b"k": (b"+string", b":-1", b"v")}) for at in copies]
                self.assertIn((look.shows, look.held), wanted, cut)
                self.assertIn(proxy.heard()[0], [it[:cut] for it in copies.values()])
                proxy.lets_go.set()
            self.caught_up(master, *(it for it, _, _ in begun))

    def begins_anew(self, node, master, cut):
        """A node with a key of its own follows a master, through a proxy that cuts the first link behind so many bytes of the master. The next link waits. The
        proxy, and what the node held."""
        if node.said().role == "slave":
            self.promoted(node)
        self.assertEqual((node.asks("FLUSHALL"), node.asks("SET", "own", "%d" % cut))[1], OK)
        held, proxy = self.looks(node)[0], self.proxy(master)
        proxy.free, proxy.cuts = 1, [(cut, None, False)]
        proxy.lets_go.clear()
        self.assertTrue(node.follow(proxy.port))
        return proxy, held

    def test_each_byte_of_an_effect(self):
        """Links that are cut behind each byte in turn of an effect: a half effect is none, and who comes again is sent all of it."""
        master, proxies, nodes = self.begun(MUCH)
        chance = random.Random(4)
        for first in range(0, 28, len(nodes)):
            before, effect = self.caught_up(master, *nodes), request("SET", "k", chance.choice("vwxyz"))
            if before.held.get(b"k") == (b"+string", b":-1", effect[-3:-2]):
                effect = request("SET", "k", "a")
            for cut, proxy in enumerate(proxies, first):
                proxy.free = len(proxy.links)
                proxy.lets_go.clear()
                proxy.links[-1].cut_after(cut)
            master.asked.send(effect)
            self.assertEqual(master.asked.reply(), OK)
            for cut, (proxy, node) in enumerate(zip(proxies, nodes), first):
                self.comes(lambda: len(proxy.links) > proxy.free)
                self.assertEqual(node.said().shows, (before.shows[0], before.shows[1] + (27 if cut == 27 else 0)))
                proxy.lets_go.set()
            self.caught_up(master, *nodes)
            for cut, proxy in enumerate(proxies, first):
                rest = b"" if cut == 27 else effect
                wanted = GREETED + PART + before.shows[0].encode() + b"\r\n" + rest
                # one that had all of the effect is level before its next link has brought anything
                self.comes(lambda: len(proxy.heard()[-1]) >= len(wanted))
                self.assertEqual(proxy.heard()[-1], wanted)


def next_cut(chance):
    """After how many bytes of the master, or of the replica, a link is cut, and whether it is reset."""
    heard = chance.choice((None, chance.randrange(100), chance.randrange(600), chance.randrange(4000)))
    said = chance.randrange(200) if heard is None else None
    return heard, said, chance.random() < 0.3


class LargeWords(Replicating):
    """A word that comes to a replica in many pieces."""

    def test_one_whose_link_is_cut_within_it(self):
        """Before its last byte it isn't there. It is sent again, by a part of the stream where the backlog has it and else in a copy; and the file has it."""
        value = random.Random(20).randbytes(LARGE)
        for backlog, answer in ((2 * LARGE, PART), (MUCH, WHOLE)):
            with self.subTest(backlog=backlog):
                master = self.node(backlog=backlog)
                proxy = self.proxy(master)
                replica = self.node(aof=self.path, follows=proxy.port)
                self.caught_up(master, replica)
                proxy.free = len(proxy.links)
                proxy.lets_go.clear()
                proxy.links[-1].cut_after(LARGE // 3)
                self.assertEqual(master.asks("SET", "large", value), OK)
                self.comes(lambda: len(proxy.links) > proxy.free)
                self.assertEqual(replica.asks("EXISTS", "large"), number(0))
                proxy.lets_go.set()
                self.caught_up(master, replica)
                self.assertIn(answer, proxy.heard()[-1][:200])
                self.assertTrue(replica.asks("GET", "large") == bulk(value))
                replica.kill()
                alone = self.node(aof=self.path)
                self.assertTrue(alone.asks("GET", "large") == bulk(value))
                alone.kill()

    def test_one_that_is_announced_and_comes_in_part(self):
        """It costs what came of it, and not what was announced; the replica serves on."""
        master, part = Played(), 4 * MIB
        replica = self.node(follows=self.fake(master).port)
        self.comes(lambda: master.links and replica.said().offset == 27)
        before = replica.memory()
        master.says(b"*3\r\n$3\r\nSET\r\n$1\r\nk\r\n$%d\r\n" % MOST + random.Random(21).randbytes(part))
        self.comes(lambda: replica.memory() >= before + part)
        self.assertEqual((replica.asks("GET", "k"), replica.said().offset), (bulk("v"), 27))
        self.assertLess(replica.peak(), before + 4 * part)


class Kills(Replicating):
    """Three nodes, of which two follow the third, each through a proxy. In each round one is killed in the middle of writes, and links are cut at any byte.
    Where the master was killed, and now and then else, a replica is promoted. The killed one comes back, and at the end all hold the same."""

    def setUp(self):
        super().setUp()
        self.chance, self.writes = random.Random(SEED), Writes(SEED)
        # the second node has a file; each is at its port whenever it is there
        self.files = {free_port(): {"aof": path, "sync": path and "no"} for path in (None, self.path, None)}
        # the proxy through which each replica follows now, and all that there were
        self.between, self.proxies = {}, []
        first, *others = self.files
        self.master = self.starts(first)
        self.nodes = [self.master, *(self.starts(it, self.way(it)) for it in others)]

    def starts(self, port, follows=None):
        """The node at a port is started. Of its stream it keeps as much as is drawn."""
        return self.node(port=port, follows=follows, backlog=self.chance.choice(BACKLOGS), **self.files[port])

    def way(self, port):
        """Where the node at a port is to follow the master: at a new proxy, which takes the place of the one before."""
        self.leaves(port)
        proxy = self.between[port] = self.proxy(self.master)
        proxy.cuts = self.cuts()
        self.proxies.append(proxy)
        return proxy.port

    def leaves(self, port):
        """The proxy is closed through which the node at a port has followed."""
        if port in self.between:
            self.between.pop(port).close()

    def cuts(self):
        """Where the next links of a replica are cut."""
        return [next_cut(self.chance) for _ in range(self.chance.randrange(4))]

    def cut_links(self):
        """Each replica's link goes on, or is cut at once or within what the master says next; the next ones come at once, or wait until all is written."""
        for proxy in self.between.values():
            proxy.cuts = self.cuts()
            if self.chance.random() < 0.3:
                proxy.lets_go.clear()
            if proxy.links and self.chance.random() < 0.7:
                proxy.links[-1].cut_after(self.chance.choice((0, self.chance.randrange(400), self.chance.randrange(4000))))

    def killed(self):
        """One of the nodes is killed while a client's writes are under way. Where it isn't the master, all of these are done then."""
        node, count = self.chance.choice(self.nodes), self.chance.randint(1, 200)
        with self.master.client() as client:
            self.writes.send(client, count)
            delay = time.monotonic() + self.chance.choice((0, 0.0005, 0.003))
            self.comes(lambda: time.monotonic() >= delay)
            node.kill()
            for _ in range(count if node is not self.master else 0):
                client.reply()
        self.writes.note()
        return node

    def promotes_another(self, there):
        """A replica of those that are there takes the master's place and writes, and the others follow it: the old master too, which may have written more."""
        self.looks(*there)
        old, self.master = self.master, self.chance.choice([it for it in there if it is not self.master])
        self.leaves(self.master.port)
        self.promoted(self.master)
        for it in (self.master, old):
            if it in there:
                self.writes.play(it, self.chance.choice((0, 0, 1, 9)))
        for it in there:
            if it is not self.master:
                self.assertTrue(it.follow(self.way(it.port)))

    def goes_on(self, killed):
        """The killed node is started again: as a replica, or where it was the master perhaps as that, with what its file has."""
        place, was_master = self.nodes.index(killed), killed is self.master
        if was_master and self.chance.random() < 0.3:
            self.master = self.nodes[place] = self.starts(killed.port)
            return
        if was_master or self.chance.random() < 0.4:
            self.promotes_another([it for it in self.nodes if it is not killed])
        self.nodes[place] = self.starts(killed.port, self.way(killed.port))

    def plays_a_round(self):
        self.cut_links()
        self.goes_on(self.killed())
        self.cut_links()
        self.writes.play(self.master, self.chance.randrange(20))
        for it in self.between.values():
            it.cut_no_more()
        self.caught_up(self.master, *(it for it in self.nodes if it is not self.master))

    def test_nodes_never_differ_in_silence(self):
        for at in range(ROUNDS):
            try:
                self.plays_a_round()
            except Exception as error:
                raise AssertionError("in round %d of seed %d" % (at, SEED)) from error
        heard = [it for proxy in self.proxies for it in proxy.heard()]
        for answer in (WHOLE, PART):
            self.assertGreater(sum(answer in it for it in heard), ROUNDS // 4, answer)


class Files(Replicating):
    """A replica's append-only file is its own."""

    def loaded(self, replica):
        """What a server alone holds that loads the file of a replica, which is killed."""
        replica.kill()
        alone = self.node(aof=self.path)
        held = self.looks(alone)[0].held
        alone.kill()
        return held

    def test_a_replicas_file_is_its_dataset(self):
        """After a whole copy over another dataset and further writes it loads as what the master has."""
        self.write(request("SET", "old", "v") + request("RPUSH", "list0", "old"))
        master = self.node()
        self.writes.play(master, 100)
        replica = self.node(aof=self.path, follows=master.port)
        self.caught_up(master, replica)
        self.writes.play(master, 100)
        self.assertEqual(master.asks("SET", "last", "v"), OK)
        held = self.caught_up(master, replica).held
        self.assertNotIn(b"old", held)
        self.assertEqual(self.loaded(replica), held)

    def test_a_rewritten_file_of_a_replica(self):
        """BGREWRITEAOF is no write, and the file goes on behind it."""
        master, replica = self.node(), self.node(aof=self.path)
        self.assertTrue(replica.follow(master.port))
        self.writes.play(master, 100)
        self.caught_up(master, replica)
        self.assertEqual(replica.asks("BGREWRITEAOF")[:1], b"+")
        self.writes.play(master, 20)
        held = self.caught_up(master, replica).held
        self.assertEqual(self.loaded(replica), held)

    def test_a_kill_within_a_whole_copy(self):
        """The file has the dataset before the copy or the whole copy, and never a part of it, whenever the replica is killed."""
        master, chance = self.node(), random.Random(7)
        master.asks("MSET", *(word for at in range(3000) for word in ("key%d" % at, "v" * 50)))
        copy, own = self.looks(master)[0].held, {b"own": (b"+string", b":-1", b"v")}
        for _ in range(20):
            self.write(request("SET", "own", "v"))
            replica = self.node(aof=self.path)
            self.assertTrue(replica.follow(master.port))
            end = time.monotonic() + chance.random() * 0.02
            self.comes(lambda: time.monotonic() >= end)
            held = self.loaded(replica)
            self.assertTrue(held in (own, copy), sorted(held)[:10])

    def test_a_kill_within_the_stream(self):
        """The file has a beginning of the stream, with all that the replica showed and that its master knows of."""
        master, replica, chance = self.node(), self.node(aof=self.path), random.Random(8)
        self.assertTrue(replica.follow(master.port))
        self.caught_up(master, replica)
        asks, wrote = replica.client(), 0
        self.addCleanup(asks.close)
        for _ in range(20):
            count = chance.randint(1, 400)
            master.asked.send(b"".join(request("RPUSH", "list", "%d" % it) for it in range(wrote, wrote + count)))
            wrote += count
            showed = read(asks.asks("LLEN", "list"))[0]
            end = time.monotonic() + chance.random() * 0.003
            self.comes(lambda: time.monotonic() >= end)
            replica.kill()
            asks.close()
            for _ in range(count):
                master.asked.reply()
            alone = self.node(aof=self.path)
            items = read(alone.asks("LRANGE", "list", "0", "-1"))[0]
            self.assertEqual(items, [b"%d" % it for it in range(len(items))])
            self.assertGreaterEqual(len(items), int(showed[1:]))
            alone.kill()
            replica = self.node(aof=self.path, follows=master.port)
            self.caught_up(master, replica)
            asks = replica.client()
            self.addCleanup(asks.close)

    def test_heartbeats_and_handshakes_are_not_in_it(self):
        """The file is the copy's commands and the effects behind them, and nothing else."""
        master, replica = self.node(), self.node(aof=self.path)
        self.assertEqual(master.asks("SET", "k", "v"), OK)
        self.assertTrue(replica.follow(master.port))
        self.caught_up(master, replica)
        self.assertEqual(self.bytes(), SET)
        self.assertEqual(master.asks("SET", "k", "w"), OK)
        self.caught_up(master, replica)
        self.assertEqual(self.bytes(), SET + request("SET", "k", "w"))

    def test_a_replica_that_starts_again_with_its_file(self):
        """It serves what the file has while its master is away, and catches up once that is there."""
        master, replica = self.node(), self.node(aof=self.path)
        self.assertTrue(replica.follow(master.port))
        self.writes.play(master, 50)
        held = self.caught_up(master, replica).held
        for it in (replica, master):
            it.kill()
        again = self.node(aof=self.path, follows=master.port)
        self.assertEqual(self.looks(again)[0].held, held)
        self.assertEqual(again.asks("SET", "k", "v"), READONLY)
        back = self.node(port=master.port)
        self.assertEqual(back.asks("SET", "only", "v"), OK)
        self.assertEqual(set(self.caught_up(back, again).held), {b"only"})


if __name__ == "__main__":
    unittest.main()
