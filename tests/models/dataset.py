"""Datasets, effects, and the commands on data that scripts of a world use, each with its reply and its effects.

A part of the slow, plain model in `world.py`, written from the description alone. A dataset is a dictionary from key to a value and a deadline or
None; a value is bytes, a tuple of items (a list), a frozenset of members (a set) or scores of members (a sorted set). Nothing is changed in place. An effect is its words."""

from typing import NamedTuple

from tests.models.follower import Fault, effect_of
from tests.models.request import Bad, Whole, next_command
from tests.support.program import request
from tests.support.replies import INTEGER, NIL, NO_LIST, OK, OVERFLOW, POSITIVE, SYNTAX, UNKNOWN, WRONG_KIND, arity, array, bulk, number
from tests.support.requests import framed

MOST_DEADLINE = 2**62
MOST_AMOUNT = 2**61
MOST_SCORE = 2**53
# so many items stand in one effect of a command, and in one command that rebuilds
GROUP = 64
# in one tick
MOST_DELETED = 64
# of a note in a file, between its mark and its line feed
NOTE_LIMIT = 65_536

PING = (b"PING",)


class Undefined(Exception):
    """No effect has these words, or it can't be applied here."""


class Scores(dict):
    """A sorted set: its members, each with its score."""


class Given(NamedTuple):
    """What a step is handed: the time in milliseconds, and a random word."""

    now: int
    word: int = 0


def strict(word, least=-(2**63), most=2**63 - 1):
    """The number that a word is in its one spelling, or None."""
    text = word.decode("latin-1")
    digits = text[1:] if text[:1] == "-" else text
    # no number that is asked for has more digits
    if not (digits.isascii() and digits.isdigit() and len(digits) <= 20) or str(int(text)) != text:
        return None
    return int(text) if least <= int(text) <= most else None


# ---- effects


def text(effect):
    return request(*effect)


def texts(effects):
    return b"".join(map(text, effects))


def value_of(held, key, kind):
    """The value under a key; an empty one where there is none."""
    value = held.get(key, (kind(), None))[0]
    if type(value) is not kind:
        raise Undefined
    return value


def put(held, key, value, *deadline):
    """With this value under the key, and its deadline as it was, unless another is named. An empty collection goes."""
    kept = deadline[0] if deadline else held.get(key, (None, None))[1]
    if type(value) is not bytes and not value:
        return without(held, key)
    return {**held, key: (value, kept)}


def without(held, key):
    return {it: held[it] for it in held if it != key}


def counted(word, least=-(2**63), most=2**63 - 1):
    value = strict(word, least, most)
    if value is None:
        raise Undefined
    return value


def set_value(held, key, value, *options):
    if not options:
        return put(held, key, value, None)
    if options == (b"KEEPTTL",):
        return put(held, key, value)
    if len(options) == 2 and options[0] == b"PXAT":
        return put(held, key, value, counted(options[1], 1, MOST_DEADLINE))
    raise Undefined


def increase(held, key, by):
    by, before = counted(by), value_of(held, key, bytes)
    after = by + (counted(before) if key in held else 0)
    return put(held, key, b"%d" % counted(b"%d" % after))


def expire(held, key, deadline):
    deadline = counted(deadline, 1, MOST_DEADLINE)
    if key not in held:
        raise Undefined
    return put(held, key, held[key][0], deadline)


def pop_left(held, key, count):
    items = value_of(held, key, tuple)
    return put(held, key, items[counted(count, 1, len(items)) :])


def set_scores(held, key, *words):
    if len(words) % 2:
        raise Undefined
    scores = {member: counted(score, -MOST_SCORE, MOST_SCORE) for score, member in zip(words[::2], words[1::2])}
    return put(held, key, Scores({**value_of(held, key, Scores), **scores}))


# each effect: its meaning, and how few and how many words stand behind its name
EFFECTS = {
    b"SET": (set_value, 2, 4),
    b"INCRBY": (increase, 2, 2),
    b"DEL": (without, 1, 1),
    b"FLUSHALL": (lambda held: {}, 0, 0),
    b"PING": (lambda held: held, 0, 0),
    b"PEXPIREAT": (expire, 2, 2),
    b"LPUSH": (lambda held, key, *items: put(held, key, items[::-1] + value_of(held, key, tuple)), 2, None),
    b"RPUSH": (lambda held, key, *items: put(held, key, value_of(held, key, tuple) + items), 2, None),
    b"LPOP": (pop_left, 2, 2),
    b"SADD": (lambda held, key, *members: put(held, key, value_of(held, key, frozenset) | set(members)), 2, None),
    b"SREM": (lambda held, key, *members: put(held, key, value_of(held, key, frozenset) - set(members)), 2, None),
    b"ZADD": (set_scores, 3, None),
}
# effects that no command of the model has
OTHER_EFFECTS = "MSET APPEND SETRANGE PERSIST RENAME HSET HDEL RPOP LSET LINSERT LREM LTRIM LMOVE SMOVE ZREM".encode().split()


def apply(held, effect):
    """The dataset that an effect leaves."""
    name, *words = effect
    if name in OTHER_EFFECTS:
        raise NotImplementedError(name)
    means, least, most = EFFECTS.get(name, (None, 0, 0))
    if not means or len(words) < least or (most is not None and len(words) > most):
        raise Undefined
    return means(held, *words)


def apply_all(held, effects):
    """The dataset that they leave one after another."""
    for effect in effects:
        held = apply(held, effect)
    return held


class Group(NamedTuple):
    """Effects that are done all or not at all begin the bytes, with a text of so many."""

    effects: list
    used: int


def group_text(effects):
    """The text of the group of these effects: of one its own."""
    return text(*effects) if len(effects) == 1 else framed(*map(text, effects))


def group_texts(groups):
    return b"".join(map(group_text, groups))


def is_effect(words):
    try:
        return bool(effect_of(words))
    except Fault:
        return False


def next_group(data):
    """The group at the front: an effect, or two or more that aren't PING between MULTI and EXEC. Or `More`, or `Bad`."""
    read = next_command(data)
    if not isinstance(read, Whole):
        return read
    if read.words != [b"MULTI"]:
        return Group([tuple(read.words)], read.used) if is_effect(read.words) else Bad("no effect")
    effects, used = [], read.used
    while True:
        read = next_command(data[used:])
        if not isinstance(read, Whole):
            return read
        used += read.used
        if read.words == [b"EXEC"]:
            return Group(effects, used) if len(effects) > 1 else Bad("too few effects")
        if tuple(read.words) == PING or not is_effect(read.words):
            return Bad("no effect")
        effects.append(tuple(read.words))


def note_at(data):
    """The length of the note at the front: `#`, at most so many bytes that aren't a line feed, and a line feed. `None` where there is none."""
    feed = data.find(b"\n", 0, NOTE_LIMIT + 2)
    return feed + 1 if data.startswith(b"#") and feed > 0 else None


def load(data):
    """The dataset of the longest beginning that is a list of notes and texts of groups, each of which can be applied; and the length of that beginning."""
    held, used = {}, 0
    while True:
        note = note_at(data[used : used + NOTE_LIMIT + 2])
        if note:
            used += note
            continue
        group = next_group(data[used:])
        if not isinstance(group, Group):
            return held, used
        try:
            held = apply_all(held, group.effects)
        except Undefined:
            return held, used
        used += group.used


def rebuild(held):
    """The texts of the commands that make the dataset."""
    made = b""
    for key in sorted(held):
        value, deadline = held[key]
        if type(value) is bytes:
            made += request("SET", key, value)
        elif type(value) is Scores:
            made += texts(scored(key, value))
        else:
            made += texts(grouped("RPUSH" if type(value) is tuple else "SADD", key, value if type(value) is tuple else sorted(value)))
        if deadline is not None:
            made += request("PEXPIREAT", key, str(deadline))
    return made


def grouped(name, key, items):
    items = tuple(items)
    return [(name.encode(), key, *items[at : at + GROUP]) for at in range(0, len(items), GROUP)]


def scored(key, scores):
    """The effects that give these members their scores."""
    members = sorted(scores)
    parts = [members[at : at + GROUP] for at in range(0, len(members), GROUP)]
    return [(b"ZADD", key, *(word for member in part for word in (b"%d" % scores[member], member))) for part in parts]


def past(held, now):
    """The stored keys whose deadline has come."""
    return {key for key, (_, deadline) in held.items() if deadline is not None and deadline <= now}


def due(held, now):
    """What a tick deletes, in its order."""
    keys = sorted(past(held, now), key=lambda key: (held[key][1], key))
    return [(b"DEL", key) for key in keys[:MOST_DELETED]]


# ---- commands


class AskFault(Exception):
    """The words are no command: the reply that says so."""


class WrongKind(Exception):
    """The key holds a value of another kind."""


def expire_time(name):
    return b"-ERR invalid expire time in '%s' command\r\n" % name


class SetOptions(NamedTuple):
    condition: bytes
    gets: bool
    # `None`, or the option and its word
    expiry: tuple


def read_set(words):
    condition, gets, expiry, rest = None, False, None, list(words[3:])
    while rest:
        option = rest.pop(0).upper()
        if option in (b"NX", b"XX") and condition is None:
            condition = option
        elif option == b"GET" and not gets:
            gets = True
        elif option == b"KEEPTTL" and expiry is None:
            expiry = (option, None)
        elif option in (b"EX", b"PX", b"EXAT", b"PXAT") and expiry is None and rest:
            expiry = (option, rest.pop(0))
        else:
            raise AskFault(SYNTAX)
    if expiry and expiry[1] is not None:
        amount = strict(expiry[1])
        if amount is None:
            raise AskFault(INTEGER)
        amount *= 1000 if expiry[0] in (b"EX", b"EXAT") else 1
        if not 1 <= amount <= MOST_AMOUNT:
            raise AskFault(expire_time(b"set"))
        expiry = (expiry[0], amount)
    return SetOptions(condition, gets, expiry)


def plan_set(seen, held, words, options, given):
    key, value, before = words[1], words[2], seen.get(words[1])
    if options.gets and before and type(before[0]) is not bytes:
        raise WrongKind
    old = bulk(before[0]) if options.gets and before else NIL
    if options.condition == (b"NX" if before else b"XX"):
        return old if options.gets else NIL, []
    effect = (b"SET", key, value)
    if options.expiry and options.expiry[0] == b"KEEPTTL":
        effect += (b"KEEPTTL",)
    elif options.expiry:
        at, amount = options.expiry
        effect += (b"PXAT", b"%d" % (amount if at in (b"EXAT", b"PXAT") else given.now + amount))
    return old if options.gets else OK, changing(seen, effect)


def changing(seen, effect):
    """The effect, where it changes anything."""
    return [effect] if apply(seen, effect) != seen else []


def kept(seen, key, kind):
    """The value under the key, or an empty one."""
    try:
        return value_of(seen, key, kind)
    except Undefined:
        raise WrongKind from None


def plan_get(seen, held, words, options, given):
    value = kept(seen, words[1], bytes)
    return bulk(value) if words[1] in seen else NIL, []


def plan_delete(seen, held, words, options, given):
    there = [key for key in dict.fromkeys(words[1:]) if key in seen]
    return number(len(there)), [(b"DEL", key) for key in there]


def plan_increase(seen, held, words, options, given):
    value = kept(seen, words[1], bytes)
    before = strict(value) if words[1] in seen else 0
    if before is None:
        return INTEGER, []
    if before == 2**63 - 1:
        return OVERFLOW, []
    return number(before + 1), [(b"INCRBY", words[1], b"1")]


def read_expire(words):
    options = [option.upper() for option in words[3:]]
    if len(options) > 1 or any(option not in (b"NX", b"XX", b"GT", b"LT") for option in options):
        raise AskFault(SYNTAX)
    amount = strict(words[2])
    if amount is None:
        raise AskFault(INTEGER)
    if abs(amount * 1000) > MOST_AMOUNT:
        raise AskFault(expire_time(b"expire"))
    return amount * 1000, options


def plan_expire(seen, held, words, options, given):
    (amount, conditions), key = options, words[1]
    if key not in seen:
        return number(0), []
    before, after = seen[key][1], given.now + amount
    allowed = {
        b"NX": before is None,
        b"XX": before is not None,
        b"GT": before is not None and after > before,
        b"LT": before is None or after < before,
    }
    if not all(allowed[it] for it in conditions):
        return number(0), []
    if after <= given.now:
        return number(1), [(b"DEL", key)]
    return number(1), changing(seen, (b"PEXPIREAT", key, b"%d" % after))


def plan_left(seen, held, words, options, given):
    if words[1] not in seen:
        return number(-2), []
    deadline = seen[words[1]][1]
    return number(-1 if deadline is None else deadline - given.now), []


def plan_push(seen, held, words, options, given):
    items = kept(seen, words[1], tuple)
    return number(len(items) + len(words) - 2), grouped("LPUSH", words[1], words[2:])


def read_count(words):
    if len(words) < 3:
        return None
    count = strict(words[2])
    if count is None:
        raise AskFault(INTEGER)
    if count < 0:
        raise AskFault(POSITIVE)
    return count


def plan_pop(seen, held, words, count, given):
    items = kept(seen, words[1], tuple)
    taken = items[: 1 if count is None else count]
    effects = [(b"LPOP", words[1], b"%d" % len(taken))] if taken else []
    if not items:
        return NIL if count is None else NO_LIST, []
    return bulk(taken[0]) if count is None else array(*taken), effects


def plan_add(seen, held, words, options, given):
    new = set(words[2:]) - kept(seen, words[1], frozenset)
    return number(len(new)), grouped("SADD", words[1], sorted(new))


def read_scores(words):
    """The members and their scores, where no option stands before them."""
    if words[2].upper() in (b"NX", b"XX", b"GT", b"LT", b"CH", b"INCR"):
        raise NotImplementedError(words[2])
    if len(words) % 2:
        raise AskFault(SYNTAX)
    scores = [strict(score, -MOST_SCORE, MOST_SCORE) for score in words[2::2]]
    if None in scores:
        raise AskFault(INTEGER)
    return dict(zip(words[3::2], scores))


def plan_score(seen, held, words, scores, given):
    before = kept(seen, words[1], Scores)
    changed = {member: score for member, score in scores.items() if before.get(member) != score}
    return number(len(scores.keys() - before.keys())), scored(words[1], changed)


def plan_remove(seen, held, words, options, given):
    gone = set(words[2:]) & kept(seen, words[1], frozenset)
    return number(len(gone)), grouped("SREM", words[1], sorted(gone))


def plan_draw(seen, held, words, count, given):
    members = sorted(kept(seen, words[1], frozenset))
    first = given.word % len(members) if members else 0
    taken = (members[first:] + members[:first])[: 1 if count is None else count]
    reply = array(*taken) if count is not None else bulk(taken[0]) if taken else NIL
    return reply, grouped("SREM", words[1], sorted(taken))


def read_flush(words):
    if words[1:] and (len(words) > 2 or words[1].upper() not in (b"ASYNC", b"SYNC")):
        raise AskFault(SYNTAX)


def plan_flush(seen, held, words, options, given):
    return OK, [(b"FLUSHALL",)] if held else []


class Command(NamedTuple):
    """A command on data. How few and how many words it has; a limit of None is none."""

    plan: object
    least: int
    most: object = None
    read: object = lambda words: None
    keys: object = lambda words: words[1:2]
    writes: bool = True


COMMANDS = {
    b"SET": Command(plan_set, 3, read=read_set),
    b"GET": Command(plan_get, 2, 2, writes=False),
    b"DEL": Command(plan_delete, 2, keys=lambda words: words[1:]),
    b"EXPIRE": Command(plan_expire, 3, read=read_expire),
    b"PTTL": Command(plan_left, 2, 2, writes=False),
    b"INCR": Command(plan_increase, 2, 2),
    b"SADD": Command(plan_add, 3),
    b"SREM": Command(plan_remove, 3),
    b"ZADD": Command(plan_score, 4, read=read_scores),
    b"SPOP": Command(plan_draw, 2, 3, read=read_count),
    b"LPUSH": Command(plan_push, 3),
    b"LPOP": Command(plan_pop, 2, 3, read=read_count),
    b"FLUSHALL": Command(plan_flush, 1, read=read_flush, keys=lambda words: []),
    b"DBSIZE": Command(lambda seen, held, words, options, given: (number(len(seen)), []), 1, 1, keys=lambda words: [], writes=False),
}

# commands that the model doesn't have
OTHER_COMMANDS = """
    STRLEN GETRANGE MGET SETNX SETEX PSETEX GETSET GETDEL MSET MSETNX APPEND SETRANGE DECR INCRBY DECRBY UNLINK EXISTS TYPE PEXPIRE EXPIREAT PEXPIREAT TTL
    EXPIRETIME PEXPIRETIME PERSIST RENAME RENAMENX KEYS SCAN HSET HMSET HSETNX HGET HMGET HGETALL HKEYS HVALS HDEL HEXISTS HLEN HSTRLEN HINCRBY RPUSH LPUSHX
    RPUSHX RPOP LLEN LRANGE LINDEX LSET LINSERT LREM LTRIM LMOVE RPOPLPUSH SISMEMBER SMISMEMBER SMEMBERS SCARD SRANDMEMBER SMOVE SINTER SUNION SDIFF
    ZINCRBY ZREM ZCARD ZCOUNT ZSCORE ZMSCORE ZRANK ZREVRANK ZRANGE ZREVRANGE ZRANGEBYSCORE ZREVRANGEBYSCORE ZPOPMIN ZPOPMAX ZREMRANGEBYRANK ZREMRANGEBYSCORE
    SELECT COMMAND CLIENT FLUSHDB
""".encode().split()


def checked(words, least, most):
    """Nothing, where there are as many words as the command takes."""
    if len(words) < least or (most is not None and len(words) > most):
        raise AskFault(arity(words[0].lower().decode("latin-1")))


class Plan(NamedTuple):
    reply: bytes
    effects: list
    writes: bool


def command_of(words):
    """The command on data that the words are, and its options."""
    command = COMMANDS.get(words[0].upper())
    if words[0].upper() in OTHER_COMMANDS:
        raise NotImplementedError(words[0])
    if not command:
        raise AskFault(UNKNOWN)
    checked(words, command.least, command.most)
    return command, command.read(words)


def plan(held, words, given):
    """The reply to a command on data and its effects on a master, those first that delete the named keys whose deadline has come."""
    command, options = command_of(words)
    gone = past(held, given.now)
    deleted = [(b"DEL", key) for key in dict.fromkeys(command.keys(words)) if key in gone]
    seen = {key: held[key] for key in held if key not in gone}
    try:
        reply, effects = command.plan(seen, held, words, options, given)
    except WrongKind:
        reply, effects = WRONG_KIND, []
    return Plan(reply, deleted + effects, command.writes)
