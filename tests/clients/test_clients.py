"""Clients that others wrote, as Debian packages them: each has a session with the server, and another when it was started again."""

import os
import re
import shutil
import subprocess
import sys
import tempfile
import unittest

from tests.support import server
from tests.support.program import LATE, needs, request

HERE = os.path.dirname(os.path.abspath(__file__))
DEBIANS_PYTHON, DEBIANS_GO = "/usr/bin/python3", "/usr/share/gocode"
# redigo, and its own tests in which MULTI stands
REDIGO = "github.com/gomodule/redigo/redis"
REDIGOS = ["TestDoCommands", "TestPipelineCommands", "TestExecError", "TestPoolTransactionCleanup"]
BENCHES = ["ping", "set", "get", "incr", "lpush", "rpush", "lpop", "rpop", "sadd", "hset", "spop", "zadd", "zpopmin", "lrange", "mset"]
# of so many requests, sixteen at a time
BENCHED = 20_000

# the words behind redis-cli and what it prints, one after another on one dataset
TOLD = [
    (["PING"], "PONG\n"),
    (["SET", "text", 'a "value"'], "OK\n"),
    (["GET", "text"], '"a \\"value\\""\n'),
    (["SET", "text", "other", "NX"], "(nil)\n"),
    (["INCRBY", "count", "42"], "(integer) 42\n"),
    (["HSET", "hash", "f", "1", "g", "2"], "(integer) 2\n"),
    (["HGETALL", "hash"], '1) "f"\n2) "1"\n3) "g"\n4) "2"\n'),
    (["RPUSH", "list", "a", "b", "c"], "(integer) 3\n"),
    (["LPOP", "list", "2"], '1) "a"\n2) "b"\n'),
    (["SADD", "set", "m"], "(integer) 1\n"),
    (["SMEMBERS", "set"], '1) "m"\n'),
    (["SMEMBERS", "none"], "(empty array)\n"),
    (["ZADD", "zset", "3", "x", "-1", "y"], "(integer) 2\n"),
    (["ZRANGE", "zset", "0", "-1", "WITHSCORES"], '1) "y"\n2) "-1"\n3) "x"\n4) "3"\n'),
    (["LPUSH", "text", "x"], "(error) WRONGTYPE Operation against a key holding the wrong kind of value\n"),
    (["EXEC"], "(error) ERR EXEC without MULTI\n"),
    (["PEXPIREAT", "text", "4102444800000"], "(integer) 1\n"),
    (["PEXPIRETIME", "text"], "(integer) 4102444800000\n"),
    (["DBSIZE"], "(integer) 6\n"),
]


def has_module(python, name="redis"):
    return os.path.exists(python) and not subprocess.run([python, "-c", "import " + name], capture_output=True, timeout=LATE).returncode


def runs(*words, **how):
    """Whether the command is there and ends well."""
    return bool(shutil.which(words[0])) and not subprocess.run(words, capture_output=True, timeout=LATE, **how).returncode


class Talking(unittest.TestCase):
    """Tests with a server that keeps a file, and may be started again on its port."""

    def setUp(self):
        folder = tempfile.TemporaryDirectory()
        self.addCleanup(folder.cleanup)
        self.folder = folder.name
        self.start()

    def start(self, port=None):
        self.server = server.Server(port=port, aof=os.path.join(self.folder, "data.aof"))
        self.addCleanup(self.server.stop)
        self.port = str(self.server.port)

    def start_again(self):
        self.server.kill()
        self.start(self.server.port)

    def tells(self, words, said=b""):
        ran = subprocess.run(words, input=said, capture_output=True, timeout=5 * LATE)
        self.assertEqual((ran.returncode, ran.stderr), (0, b""), ran.stdout)
        return ran.stdout.decode()

    def plays(self, *words, **how):
        """A client's session: it says `again` when it wants a server that was started again, and `done` at its end."""
        how.update(stdin=subprocess.PIPE, stdout=subprocess.PIPE, stderr=subprocess.PIPE)
        with subprocess.Popen([*words, self.port], **how) as client:
            self.addCleanup(client.kill)
            said = client.stdout.readline()
            if said == b"again\n":
                self.start_again()
            out, err = client.communicate(b"\n", timeout=LATE)
        self.assertEqual((said, out, err, client.returncode), (b"again\n", b"done\n", b"", 0))


class RedisTools(Talking):
    def setUp(self):
        needs(self, shutil.which("redis-cli") and shutil.which("redis-benchmark"), "redis-tools")
        super().setUp()
        self.cli = ["redis-cli", "-p", self.port]

    def test_redis_cli(self):
        for words, wanted in TOLD:
            with self.subTest(words=words):
                self.assertEqual(self.tells([*self.cli, "--no-raw", *words]), wanted)
        self.start_again()
        self.assertEqual(self.tells([*self.cli, "--no-raw", "DBSIZE"]), "(integer) 6\n")

    def test_redis_cli_over_one_link(self):
        lines = "".join(" ".join("'%s'" % word for word in words) + "\n" for words, _ in TOLD)
        # redis-cli leaves an empty line behind an error there
        told = self.tells([*self.cli, "--no-raw"], lines.encode()).replace("\n\n", "\n")
        self.assertEqual(told, "".join(it for _, it in TOLD))

    def test_redis_cli_within_a_transaction(self):
        lines = b"MULTI\nSET one 1\nLPUSH one x\nGET one\nEXEC\nMULTI\nSET two 2\nDISCARD\nEXISTS one two\n"
        told = self.tells([*self.cli, "--no-raw"], lines)
        done = '1) OK\n2) (error) WRONGTYPE Operation against a key holding the wrong kind of value\n3) "1"\n'
        self.assertEqual(told, "OK\nQUEUED\nQUEUED\nQUEUED\n" + done + "OK\nQUEUED\nOK\n(integer) 1\n")

    def test_redis_cli_scans(self):
        self.tells([*self.cli, "MSET", "b", "1", "a", "2", "c", "3"])
        self.assertEqual(sorted(self.tells([*self.cli, "--scan"]).split()), ["a", "b", "c"])

    def test_pipe_in_array_form(self):
        data = b"".join(request("RPUSH", "l", "%d" % it) for it in range(10_000))
        self.assertIn("errors: 0, replies: 10000\n", self.tells([*self.cli, "--pipe"], data))
        self.assertEqual(self.tells([*self.cli, "LRANGE", "l", "-2", "-1"]), "9998\n9999\n")

    def test_pipe_on_lines(self):
        data = b"".join(b"RPUSH l \"%d \\x41\" '%d'\r\n" % (it, it) for it in range(5000))
        self.assertIn("errors: 0, replies: 5000\n", self.tells([*self.cli, "--pipe"], data))
        self.assertEqual(self.tells([*self.cli, "LRANGE", "l", "-2", "-1"]), "4999 A\n4999\n")

    def test_pipe_counts_errors(self):
        ran = subprocess.run([*self.cli, "--pipe"], input=b"SET k v\nLPUSH k v\nPING\n", capture_output=True, timeout=LATE)
        self.assertIn(b"errors: 1, replies: 3\n", ran.stdout)

    def test_redis_benchmark(self):
        it = server.Server()
        self.addCleanup(it.stop)
        self.cli[-1] = str(it.port)
        words = ["redis-benchmark", "-p", str(it.port), "-t", ",".join(BENCHES), "-P", "16", "-n", str(BENCHED), "-q", "-e"]
        ran = subprocess.run(words, capture_output=True, text=True, timeout=10 * LATE)
        self.assertEqual(ran.returncode, 0, ran.stderr)
        self.assertNotIn("rror from server", ran.stdout + ran.stderr)
        runs = re.findall(r"^(?:.*\r)?(\w+)[^\r\n]*: \d+\.\d+ requests per second", ran.stdout, re.M)
        wanted = {"PING_INLINE", "PING_MBULK", *(it.upper() for it in BENCHES[1:] if it != "lrange"), "LRANGE_100", "LRANGE_600"}
        self.assertEqual(wanted - set(runs), set(), ran.stdout)
        # each request was done once: INCR's, and MSET's ten keys
        self.assertEqual(self.tells([*self.cli, "GET", "counter:__rand_int__"]), "%d\n" % BENCHED)
        self.assertEqual(self.tells([*self.cli, "GET", "key:__rand_int__"]), "VXK\n")


class Libraries(Talking):
    def test_redis_py(self):
        python = next(filter(has_module, (sys.executable, DEBIANS_PYTHON)), None)
        needs(self, python, "python3-redis")
        self.plays(python, os.path.join(HERE, "session.py"))

    def test_hiredis(self):
        needs(self, shutil.which("cc"), "gcc")
        needs(self, os.path.exists("/usr/include/hiredis/hiredis.h"), "libhiredis-dev")
        program = os.path.join(self.folder, "session")
        subprocess.run(["cc", "-O1", "-o", program, os.path.join(HERE, "session.c"), "-lhiredis"], check=True)
        self.plays(program)

    def test_perl(self):
        needs(self, runs("perl", "-MRedis", "-e", "1"), "libredis-perl")
        self.plays("perl", os.path.join(HERE, "session.pl"))

    def test_ruby(self):
        needs(self, runs("ruby", "-rredis", "-e", "1"), "ruby-redis")
        self.plays("ruby", os.path.join(HERE, "session.rb"))

    def test_node(self):
        # where Debian has its modules, for a node that isn't Debian's
        how = {"env": {**os.environ, "NODE_PATH": "/usr/share/nodejs"}}
        needs(self, runs("node", "-e", "require('redis')", **how), "node-redis")
        self.plays("node", os.path.join(HERE, "session.js"), **how)

    def going(self, path):
        """The environment for go, which finds packages at this path."""
        needs(self, shutil.which("go"), "golang-go")
        needs(self, os.path.isdir(os.path.join(DEBIANS_GO, "src", REDIGO)), "golang-github-gomodule-redigo-dev")
        return {**os.environ, "GO111MODULE": "off", "GOPATH": path, "GOCACHE": os.path.join(self.folder, "go")}

    def test_redigo(self):
        program, how = os.path.join(self.folder, "session"), self.going(DEBIANS_GO)
        subprocess.run(["go", "build", "-o", program, os.path.join(HERE, "session.go")], check=True, env=how, timeout=10 * LATE)
        self.plays(program)

    def test_redigo_by_its_own_tests(self):
        """Those of transactions, on a server that they start as they start redis-server."""
        how = self.going(self.folder)
        # one file of its tests asks for a package that needn't be there
        without = shutil.ignore_patterns("scan_test.go")
        shutil.copytree(os.path.join(DEBIANS_GO, "src", REDIGO), os.path.join(self.folder, "src", REDIGO), ignore=without)
        words = ["go", "test", "-v", "-vet=off", "-timeout=%ds" % LATE, "-run=^(%s)$" % "|".join(REDIGOS), REDIGO]
        words += ["-args", "-redis-server=" + os.path.join(HERE, "as_redis_server.py"), "-redis-port=%d" % server.free_port()]
        ran = subprocess.run(words, capture_output=True, text=True, env=how, timeout=10 * LATE)
        self.assertEqual(ran.returncode, 0, ran.stdout + ran.stderr)
        self.assertEqual(sorted(re.findall(r"^--- PASS: (\w+)", ran.stdout, re.M)), sorted(REDIGOS))

    def test_django(self):
        needs(self, has_module(DEBIANS_PYTHON, "django_redis"), "python3-django-redis")
        self.plays(DEBIANS_PYTHON, os.path.join(HERE, "session_django.py"))

    def test_php(self):
        ran = subprocess.run(["php", "-m"], capture_output=True, timeout=LATE) if shutil.which("php") else None
        needs(self, ran and b"\nredis\n" in ran.stdout, "php-redis")
        self.plays("php", os.path.join(HERE, "session.php"))


if __name__ == "__main__":
    unittest.main()
