# redis-rb: a session over all five kinds, and what is there when its server was started again. The port is the first word.
require 'redis'

$stdout.sync = true
client = Redis.new(port: ARGV[0].to_i, timeout: 60)

def is_so(found, wanted)
  abort "#{found.inspect}, not #{wanted.inspect}" unless found == wanted
end

is_so client.ping, 'PONG'
is_so client.set('text', "a value\r\n"), 'OK'
is_so client.append('text', 'more'), 13
is_so client.get('text'), "a value\r\nmore"
is_so client.set('text', 'other', nx: true), false
is_so client.incrby('count', 42), 42
is_so client.mget('count', 'none'), ['42', nil]
is_so client.hset('hash', 'f', 1, 'g', 2), 2
is_so client.hincrby('hash', 'f', 4), 5
is_so client.hgetall('hash'), { 'f' => '5', 'g' => '2' }
is_so client.rpush('list', %w[a b c]), 3
is_so client.lpop('list'), 'a'
is_so client.lrange('list', 0, -1), %w[b c]
is_so client.sadd?('set', 'm'), true
is_so client.smembers('set'), ['m']
is_so client.zadd('zset', [[3, 'x'], [-1, 'y']]), 2
is_so client.zincrby('zset', 5, 'y'), 4.0
is_so client.zrange('zset', 0, -1, with_scores: true), [['x', 3.0], ['y', 4.0]]
is_so client.expire('count', 100), true
is_so client.persist('count'), true
is_so client.ttl('count'), -1
# a pipeline without MULTI
is_so client.pipelined { |pipe| 1000.times { |number| pipe.rpush('numbers', number) } }, (1..1000).to_a
# a transaction, one without a command, and one within which a command fails
is_so client.multi { |it| it.set('one', 1); it.incr('one'); it.get('one') }, ['OK', 2, '2']
is_so client.multi { |it| }, []
begin
  client.multi { |it| it.set('two', 2); it.lpush('two', 'x'); it.incr('two') }
  abort 'no error'
rescue Redis::CommandError => error
  is_so error.message, 'WRONGTYPE Operation against a key holding the wrong kind of value'
end
is_so client.get('two'), '3'

puts 'again'
$stdin.gets
is_so client.get('count'), '42'
is_so client.lrange('numbers', -2, -1), %w[998 999]
is_so client.mget('one', 'two'), %w[2 3]
is_so client.zscore('zset', 'y'), 4.0
is_so client.del('count', 'none'), 1
puts 'done'
