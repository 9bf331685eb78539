# Redis.pm: a session over all five kinds, and what is there when its server was started again. The port is the first word.
use strict;
use warnings;
use Redis;

$| = 1;
my $client = Redis->new(server => "127.0.0.1:$ARGV[0]", reconnect => 60, every => 10_000);

sub is_so {
    my ($found, $wanted) = @_;
    my $shown = join ' ', map { defined $_ ? $_ : '-' } @$found;
    die "$shown, not $wanted\n" unless $shown eq $wanted;
}

is_so([$client->ping], 'PONG');
is_so([$client->set(text => "a value\r\n")], 'OK');
is_so([$client->append(text => 'more')], '13');
is_so([$client->get('text')], "a value\r\nmore");
is_so([$client->incrby(count => 41), $client->incr('count')], '41 42');
is_so([$client->mget('count', 'none')], '42 -');
is_so([$client->hset('hash', f => 1), $client->hset('hash', g => 2), $client->hincrby('hash', f => 4)], '1 1 5');
is_so([$client->hgetall('hash')], 'f 5 g 2');
is_so([$client->rpush('list', 'a', 'b', 'c'), $client->lpop('list')], '3 a');
is_so([$client->lrange('list', 0, -1)], 'b c');
is_so([$client->sadd('set', 'm', 'n'), $client->srem('set', 'n')], '2 1');
is_so([$client->smembers('set')], 'm');
is_so([$client->zadd('zset', 3, 'x', -1, 'y'), $client->zincrby('zset', 5, 'y')], '2 4');
is_so([$client->zrange('zset', 0, -1, 'WITHSCORES')], 'x 3 y 4');
is_so([$client->set('late', 'v', 'PXAT', 4102444800000), $client->pexpiretime('late')], 'OK 4102444800000');
is_so([$client->expire('count', 100), $client->persist('count'), $client->ttl('count')], '1 1 -1');
is_so([sort $client->keys('*t')], 'count list set text zset');
# replies that are waited for together
my @lengths;
$client->rpush('numbers', $_, sub { push @lengths, $_[0] }) for 0 .. 999;
$client->wait_all_responses;
is_so(\@lengths, join ' ', 1 .. 1000);
# a transaction, and one that is discarded
is_so([$client->multi, $client->set(one => 1), $client->incr('one'), $client->get('one')], 'OK QUEUED QUEUED QUEUED');
is_so([$client->exec], 'OK 2 2');
is_so([$client->multi, $client->set(two => 2), $client->discard, $client->exists('two')], 'OK QUEUED OK 0');
is_so([eval { $client->lpush('text', 'x') } || $@ =~ /WRONGTYPE/], '1');

print "again\n";
my $line = <STDIN>;
is_so([$client->get('count')], '42');
is_so([$client->lrange('numbers', -2, -1)], '998 999');
is_so([$client->hget('hash', 'f'), $client->sismember('set', 'm'), $client->zscore('zset', 'y')], '5 1 4');
is_so([$client->get('one'), $client->del('count', 'none')], '2 1');
print "done\n";
