/* hiredis: a session over all five kinds, and what is there when its server was started again. The port is the first word. */
#include <hiredis/hiredis.h>
#include <stdarg.h>
#include <stdio.h>
#include <stdlib.h>
#include <string.h>

static redisContext *link_;

static void fail(const char *what, const char *found)
{
    fprintf(stderr, "%s: %s\n", what, found ? found : "none");
    exit(1);
}

static redisReply *asked(const char *format, va_list words)
{
    redisReply *reply = redisvCommand(link_, format, words);
    if (!reply)
        fail(format, link_->errstr);
    return reply;
}

static void is_text(const char *wanted, const char *format, ...)
{
    va_list words;
    va_start(words, format);
    redisReply *reply = asked(format, words);
    va_end(words);
    if (!reply->str || strcmp(reply->str, wanted))
        fail(format, reply->str);
    freeReplyObject(reply);
}

static void is_number(long long wanted, const char *format, ...)
{
    va_list words;
    va_start(words, format);
    redisReply *reply = asked(format, words);
    va_end(words);
    if (reply->type != REDIS_REPLY_INTEGER || reply->integer != wanted)
        fail(format, reply->str);
    freeReplyObject(reply);
}

/* The items of an array, with a space behind each. */
static void is_list(const char *wanted, const char *format, ...)
{
    char found[1000] = "";
    va_list words;
    va_start(words, format);
    redisReply *reply = asked(format, words);
    va_end(words);
    if (reply->type != REDIS_REPLY_ARRAY)
        fail(format, reply->str);
    for (size_t at = 0; at < reply->elements; at++) {
        strncat(found, reply->element[at]->str ? reply->element[at]->str : "-", 100);
        strcat(found, " ");
    }
    if (strcmp(found, wanted))
        fail(format, found);
    freeReplyObject(reply);
}

int main(int count, char **words)
{
    char line[10];
    redisReply *reply;
    struct timeval late = {60, 0};
    link_ = redisConnectWithTimeout("127.0.0.1", count > 1 ? atoi(words[1]) : 0, late);
    if (!link_ || link_->err)
        fail("connect", link_ ? link_->errstr : 0);
    is_text("PONG", "PING");
    is_text("OK", "SET %s %b", "text", "a\0b", (size_t)3);
    is_number(3, "STRLEN text");
    is_number(41, "INCRBY count 41");
    is_number(42, "INCR count");
    is_list("42 - ", "MGET count none");
    is_number(2, "HSET hash f 1 g 2");
    is_number(5, "HINCRBY hash f 4");
    is_list("f 5 g 2 ", "HGETALL hash");
    is_number(3, "RPUSH list a b c");
    is_text("a", "LPOP list");
    is_list("b c ", "LRANGE list 0 -1");
    is_number(2, "SADD set m n");
    is_number(1, "SREM set n");
    is_list("m ", "SMEMBERS set");
    is_number(2, "ZADD zset 3 x -1 y");
    is_text("4", "ZINCRBY zset 5 y");
    is_list("x 3 y 4 ", "ZRANGE zset 0 -1 WITHSCORES");
    is_text("OK", "SET late v PXAT 4102444800000");
    is_number(4102444800000, "PEXPIRETIME late");
    is_text("WRONGTYPE Operation against a key holding the wrong kind of value", "LPUSH text x");
    for (int at = 0; at < 1000; at++)
        redisAppendCommand(link_, "RPUSH numbers %d", at);
    for (int at = 0; at < 1000; at++) {
        if (redisGetReply(link_, (void **)&reply) != REDIS_OK || reply->integer != at + 1)
            fail("pipelined", link_->errstr);
        freeReplyObject(reply);
    }
    is_text("OK", "MULTI");
    is_text("QUEUED", "SET one 1");
    is_text("QUEUED", "GET one");
    is_list("OK 1 ", "EXEC");
    puts("again");
    fflush(stdout);
    if (!fgets(line, sizeof line, stdin))
        fail("again", 0);
    if (redisReconnect(link_) != REDIS_OK)
        fail("reconnect", link_->errstr);
    is_text("42", "GET count");
    is_list("998 999 ", "LRANGE numbers -2 -1");
    is_text("5", "HGET hash f");
    is_text("1", "GET one");
    is_number(1, "SISMEMBER set m");
    is_text("4", "ZSCORE zset y");
    is_number(1, "DEL count none");
    redisFree(link_);
    puts("done");
    return 0;
}
