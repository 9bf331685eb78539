// redigo: a session over all five kinds, and what is there when its server was started again. The port is the first word.
package main

import (
	"bufio"
	"fmt"
	"os"
	"time"

	"github.com/gomodule/redigo/redis"
)

const wrongKind = "WRONGTYPE Operation against a key holding the wrong kind of value"

func dialed() redis.Conn {
	link, err := redis.Dial("tcp", "127.0.0.1:"+os.Args[1], redis.DialReadTimeout(time.Minute))
	is("<nil>", fmt.Sprint(err))
	return link
}

func is(wanted, found string) {
	if found != wanted {
		fmt.Fprintf(os.Stderr, "%s, not %s\n", found, wanted)
		os.Exit(1)
	}
}

// A reply, or its error, as text.
func shown(reply interface{}, err error) string {
	if err != nil {
		return err.Error()
	}
	switch it := reply.(type) {
	case []byte:
		return string(it)
	case redis.Error:
		return it.Error()
	case []interface{}:
		text := ""
		for _, item := range it {
			text += shown(item, nil) + " "
		}
		return text
	}
	return fmt.Sprint(reply)
}

func main() {
	link := dialed()
	says := func(wanted, name string, words ...interface{}) {
		is(wanted, shown(link.Do(name, words...)))
	}
	says("PONG", "PING")
	says("OK", "SET", "text", "a value\r\n")
	says("13", "APPEND", "text", "more")
	says("a value\r\nmore", "GET", "text")
	says("<nil>", "SET", "text", "other", "NX")
	says("42", "INCRBY", "count", 42)
	says("42 <nil> ", "MGET", "count", "none")
	says("2", "HSET", "hash", "f", 1, "g", 2)
	says("5", "HINCRBY", "hash", "f", 4)
	says("f 5 g 2 ", "HGETALL", "hash")
	says("3", "RPUSH", "list", "a", "b", "c")
	says("a", "LPOP", "list")
	says("1", "SADD", "set", "m")
	says("2", "ZADD", "zset", 3, "x", -1, "y")
	says("4", "ZINCRBY", "zset", 5, "y")
	says("x 3 y 4 ", "ZRANGE", "zset", 0, -1, "WITHSCORES")
	says(wrongKind, "LPUSH", "text", "x")
	// requests that are sent together, without MULTI
	for at := 0; at < 1000; at++ {
		link.Send("RPUSH", "numbers", at)
	}
	link.Flush()
	for at := 0; at < 1000; at++ {
		is(fmt.Sprint(at+1), shown(link.Receive()))
	}
	// a transaction that is sent with its end, one within which a command fails, and one that is refused
	link.Send("MULTI")
	link.Send("SET", "one", 1)
	link.Send("INCR", "one")
	says("OK 2 ", "EXEC")
	link.Send("MULTI")
	link.Send("SET", "two", 2)
	link.Send("LPUSH", "two", "x")
	link.Send("INCR", "two")
	says("OK "+wrongKind+" 3 ", "EXEC")
	says("OK", "MULTI")
	says("QUEUED", "SET", "three", 3)
	says("ERR unknown command", "NOSUCH")
	says("EXECABORT Transaction discarded because of previous errors.", "EXEC")
	says("2", "EXISTS", "one", "two", "three")

	fmt.Println("again")
	bufio.NewReader(os.Stdin).ReadString('\n')
	link.Close()
	link = dialed()
	says("42", "GET", "count")
	says("998 999 ", "LRANGE", "numbers", -2, -1)
	says("2 3 ", "MGET", "one", "two")
	says("4", "ZSCORE", "zset", "y")
	says("1", "DEL", "count", "none")
	link.Close()
	fmt.Println("done")
}
