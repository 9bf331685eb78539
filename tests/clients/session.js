// node-redis: a session over all five kinds, and what is there when its server was started again. The port is the first word.
'use strict';

const assert = require('node:assert');
const redis = require('redis');

const same = assert.deepStrictEqual;
const WRONG_KIND = 'WRONGTYPE Operation against a key holding the wrong kind of value';

async function main() {
    const client = redis.createClient({ socket: { host: '127.0.0.1', port: Number(process.argv[2]), reconnectStrategy: () => 10 } });
    // a link that is gone is told here, and made anew
    client.on('error', () => {});
    await client.connect();
    same(await client.ping(), 'PONG');
    same(await client.set('text', 'a value\r\n'), 'OK');
    same(await client.append('text', 'more'), 13);
    same(await client.get('text'), 'a value\r\nmore');
    same(await client.set('text', 'other', { NX: true }), null);
    same(await client.incrBy('count', 42), 42);
    same(await client.mGet(['count', 'none']), ['42', null]);
    same(await client.hSet('hash', { f: 1, g: 2 }), 2);
    same(await client.hIncrBy('hash', 'f', 4), 5);
    same({ ...(await client.hGetAll('hash')) }, { f: '5', g: '2' });
    same(await client.rPush('list', ['a', 'b', 'c']), 3);
    same(await client.lPop('list'), 'a');
    same(await client.lRange('list', 0, -1), ['b', 'c']);
    same(await client.sAdd('set', ['m']), 1);
    same(await client.sMembers('set'), ['m']);
    same(await client.zAdd('zset', [{ score: 3, value: 'x' }, { score: -1, value: 'y' }]), 2);
    same(await client.zIncrBy('zset', 5, 'y'), 4);
    same(await client.zRangeWithScores('zset', 0, -1), [{ value: 'x', score: 3 }, { value: 'y', score: 4 }]);
    same(await client.expire('count', 100), true);
    same(await client.persist('count'), true);
    same(await client.ttl('count'), -1);
    // requests that are sent together, without MULTI
    const lengths = await Promise.all(Array.from({ length: 1000 }, (_, at) => client.rPush('numbers', String(at))));
    same(lengths, Array.from({ length: 1000 }, (_, at) => at + 1));
    // a transaction, one within which a command fails, and one that is refused
    same(await client.multi().set('one', '1').incr('one').get('one').exec(), ['OK', 2, '2']);
    const told = await client.multi().set('two', '2').lPush('two', 'x').incr('two').exec();
    same(told.map((it) => it.message || it), ['OK', WRONG_KIND, 3]);
    same(await client.get('two'), '3');
    await assert.rejects(client.multi().set('three', '3').addCommand(['NOSUCH']).exec());
    same(await client.exists('three'), 0);
    await assert.rejects(client.lPush('text', 'x'), { message: WRONG_KIND });

    console.log('again');
    await new Promise((resolve) => process.stdin.once('data', resolve));
    same(await client.get('count'), '42');
    same(await client.lRange('numbers', -2, -1), ['998', '999']);
    same(await client.mGet(['one', 'two']), ['2', '3']);
    same(await client.zScore('zset', 'y'), 4);
    same(await client.del(['count', 'none']), 1);
    await client.disconnect();
    console.log('done');
    process.exit(0);
}

main().catch((error) => {
    console.error(error);
    process.exit(1);
});
