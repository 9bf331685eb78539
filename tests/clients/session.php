<?php
// phpredis: a session over all five kinds, and what is there when its server was started again. The port is the first word.

function is_so($found, $wanted)
{
    if ($found !== $wanted) {
        fwrite(STDERR, json_encode($found) . ', not ' . json_encode($wanted) . "\n");
        exit(1);
    }
}

$client = new Redis();
is_so($client->connect('127.0.0.1', (int) $argv[1], 60), true);
is_so($client->ping(), true);
is_so($client->set('text', "a value\r\n"), true);
is_so($client->append('text', 'more'), 13);
is_so($client->get('text'), "a value\r\nmore");
is_so($client->set('text', 'other', ['nx']), false);
is_so($client->incrBy('count', 41), 41);
is_so($client->incr('count'), 42);
is_so($client->mGet(['count', 'none']), ['42', false]);
is_so($client->hMSet('hash', ['f' => 1, 'g' => 2]), true);
is_so($client->hIncrBy('hash', 'f', 4), 5);
is_so($client->hGetAll('hash'), ['f' => '5', 'g' => '2']);
is_so($client->rPush('list', 'a', 'b', 'c'), 3);
is_so($client->lPop('list'), 'a');
is_so($client->lRange('list', 0, -1), ['b', 'c']);
is_so($client->sAdd('set', 'm', 'n'), 2);
is_so($client->sRem('set', 'n'), 1);
is_so($client->sMembers('set'), ['m']);
is_so($client->zAdd('zset', 3, 'x', -1, 'y'), 2);
is_so($client->zIncrBy('zset', 5, 'y'), 4.0);
is_so($client->zRange('zset', 0, -1, true), ['x' => 3.0, 'y' => 4.0]);
is_so($client->zRangeByScore('zset', '-inf', '3'), ['x']);
is_so($client->set('late', 'v', ['px' => 3600000]), true);
is_so($client->pttl('late') > 0, true);
is_so($client->expire('count', 100), true);
is_so($client->persist('count'), true);
is_so($client->ttl('count'), -1);
// a pipeline without MULTI
$pipe = $client->multi(Redis::PIPELINE);
for ($number = 0; $number < 1000; $number++) {
    $pipe->rPush('numbers', $number);
}
is_so($pipe->exec(), range(1, 1000));
// a transaction, within which one command fails, and one that is discarded
is_so($client->multi()->set('one', 1)->incr('one')->lPush('one', 'x')->get('one')->exec(), [true, 2, false, '2']);
$client->multi();
$client->set('two', 2);
is_so($client->discard(), true);
is_so($client->exists('one', 'two'), 1);
is_so($client->lPush('text', 'x'), false);
// some versions of phpredis keep a zero byte behind the text
is_so(rtrim($client->getLastError(), "\0"), 'WRONGTYPE Operation against a key holding the wrong kind of value');

echo "again\n";
fgets(STDIN);
is_so($client->get('count'), '42');
is_so($client->lRange('numbers', -2, -1), ['998', '999']);
is_so($client->hGet('hash', 'f'), '5');
is_so($client->get('one'), '2');
is_so($client->sIsMember('set', 'm'), true);
is_so($client->zScore('zset', 'y'), 4.0);
is_so($client->del('count', 'none'), 1);
echo "done\n";
