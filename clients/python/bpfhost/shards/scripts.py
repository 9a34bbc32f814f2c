"""The scripts of a shard. Redis runs each as one step.

Each may be run twice, and late: a command of a connection that was cut may run after the same command of another connection.
"""

from bpfhost.shards.connection import Script
from bpfhost.shards.names import GIVEN_UP_BY_ONE

# A seat's text is its generation and a word: `name:` a customer who has it, `leaves:` or `arrives:` an entry, or `closed:`.

# The record of a session is JSON: the number of its last call, how many calls were given up, how long the shard had been served, and the
# shard, tenant and entry of the call, if there is one. All of it is text, since Lua has no whole numbers of 64 bits. Up to version 0.2.0 a
# record was these words with spaces between them; such a record is read, and written as JSON. ARGV: session, ..
_SESSION = """
local function session_of(key)
  local record = redis.call('HGET', key, ARGV[1])
  if not record then return nil end
  if string.sub(record, 1, 1) == '{' then return cjson.decode(record) end
  local number, given_up, place = string.match(record, '^(%d+) (%d+) %d+ (.+)$')
  local shard, tenant, entry = string.match(place, '^(%d+) (%d+) (.+)$')
  return {number = number, given_up = given_up, shard = shard, tenant = tenant, entry = entry}
end
local function keep(session, key, lease)
  session.served = redis.call('HGET', lease, 'served') or '0'
  redis.call('HSET', key, ARGV[1], cjson.encode(session))
end
local function taken(session)
  return {'taken', session.shard, session.tenant, session.entry}
end
"""

# Takes a call: once for each number of a session, while the customer has its seat and may have more waiting. A call that is older than the
# last one that was given up is not taken; the script then returns how many were given up.
# KEYS: seats, frames, sessions, waiting, lease. ARGV: session, number, given up, seat, shard, tenant, frames, weight, most waiting, most
# sessions, and the field that has the frames.
ASK = Script(_SESSION + """
local session = session_of(KEYS[3])
if session then
  if session.number == ARGV[2] then return taken(session) end
  if tonumber(session.number) > tonumber(ARGV[2]) then return {'passed', session.number} end
  if tonumber(session.given_up) > tonumber(ARGV[3]) then return {'given up', session.given_up} end
end
if redis.call('HGET', KEYS[1], ARGV[6]) ~= ARGV[4] then return {'seat'} end
local waits = tonumber(redis.call('HGET', KEYS[4], ARGV[6]) or '0')
if waits > 0 and waits + tonumber(ARGV[8]) > tonumber(ARGV[9]) then return {'full'} end
if not session and redis.call('HLEN', KEYS[3]) >= tonumber(ARGV[10]) then return {'sessions'} end
local entry = redis.call('XADD', KEYS[2], '*', ARGV[11], ARGV[7])
redis.call('HINCRBY', KEYS[4], ARGV[6], ARGV[8])
session = {number = ARGV[2], given_up = ARGV[3], shard = ARGV[5], tenant = ARGV[6], entry = entry}
keep(session, KEYS[3], KEYS[5])
return taken(session)
""")

# Gives a call up, so that it is not taken later; if it was taken, returns that.
# KEYS: sessions, lease. ARGV: session, number, given up before.
GIVE_UP = Script(_SESSION + """
local session = session_of(KEYS[1]) or {number = '0', given_up = '0'}
if session.number == ARGV[2] then return taken(session) end
if tonumber(session.number) > tonumber(ARGV[2]) then return {'passed', session.number} end
if tonumber(session.given_up) > tonumber(ARGV[3]) then return {'given up'} end
session.given_up = tostring(ARGV[3] + 1)
keep(session, KEYS[1], KEYS[2])
return {'given up'}
""", without_memory=True)

# Lets another process continue a session: calls that an earlier process has in progress are not taken any more. A process counts the
# calls it gives up by ones, and each process starts from another million. A process that has read an old count gets the current one, and
# asks again.
# KEYS: seats, sessions, lease. ARGV: session, given up before, tenant, seat, most sessions.
RESUME = Script(_SESSION + f"""
if redis.call('HGET', KEYS[1], ARGV[3]) ~= ARGV[4] then return {{'seat'}} end
local session = session_of(KEYS[2])
if not session and redis.call('HLEN', KEYS[2]) >= tonumber(ARGV[5]) then return {{'sessions'}} end
session = session or {{number = '0', given_up = '0'}}
if session.given_up ~= ARGV[2] then return {{'passed', session.given_up}} end
session.given_up = string.format('%.0f', (math.floor(session.given_up / {GIVEN_UP_BY_ONE}) + 1) * {GIVEN_UP_BY_ONE})
keep(session, KEYS[2], KEYS[3])
return {{'resumed', session.number, session.given_up, session.shard, session.tenant, session.entry}}
""", without_memory=True)

# Deletes a field of a hash, if it still has the value that was seen, or none is named. KEYS: hash. ARGV: field, value or nothing.
FORGET = Script("""
if ARGV[2] ~= '' and redis.call('HGET', KEYS[1], ARGV[1]) ~= ARGV[2] then return 0 end
return redis.call('HDEL', KEYS[1], ARGV[1])
""", without_memory=True)

# A tenant's seat in a shard, and its generation, -1 if there is none. KEYS: seats, .. ARGV: tenant, generation, ..
_SEAT = """
local seat = redis.call('HGET', KEYS[1], ARGV[1])
local known = seat and tonumber(string.match(seat, '^%d+')) or -1
"""

# Gives a seat to a customer, if it was never given with this generation or a later one.
# KEYS: seats. ARGV: tenant, generation, seat.
CLAIM = Script(_SEAT + """
if seat == ARGV[3] then return 1 end
if known >= tonumber(ARGV[2]) then return 0 end
redis.call('HSET', KEYS[1], ARGV[1], ARGV[3])
return 1
""")

# Takes a seat back, and lets its tenant leave: after this entry no frame of the customer is added.
# KEYS: seats, frames. ARGV: tenant, generation, seat.
LEAVE = Script(_SEAT + """
local left = seat and string.match(seat, '^' .. ARGV[2] .. ' leaves:(.+)$')
if left then return left end
if seat ~= ARGV[3] then return false end
local entry = redis.call('XADD', KEYS[2], '*', 'leave', ARGV[2])
redis.call('HSET', KEYS[1], ARGV[1], ARGV[2] .. ' leaves:' .. entry)
return entry
""")

# Stores a piece of a customer's state for a seat that it has to arrive at, if it has not arrived yet.
# KEYS: seats, pieces. ARGV: tenant, generation, name of the piece, bytes.
BRING = Script(_SEAT + """
if known >= tonumber(ARGV[2]) then return 0 end
redis.call('HSET', KEYS[2], ARGV[3], ARGV[4])
return 1
""")

# Lets a tenant arrive with the sessions of its customer, and reserves its seat; it is the customer's when it has arrived (CLAIM would
# refuse it, as the generation is the same, so SEAT gives it).
# KEYS: seats, frames, sessions. ARGV: tenant, generation, manifest of its state, then sessions and their records.
ARRIVE = Script(_SEAT + """
if known == tonumber(ARGV[2]) then
  if string.match(seat, '^%d+ closed:') then return false end
  return string.match(seat, '^%d+ arrives:(.+)$') or 'has'
end
if known > tonumber(ARGV[2]) then return false end
local entry = redis.call('XADD', KEYS[2], '*', 'arrive', ARGV[3])
for at = 4, #ARGV, 2 do redis.call('HSET', KEYS[3], ARGV[at], ARGV[at + 1]) end
redis.call('HSET', KEYS[1], ARGV[1], ARGV[2] .. ' arrives:' .. entry)
return entry
""")

# Gives a seat to the customer that has arrived there, and has not left since.
# KEYS: seats. ARGV: tenant, generation, seat.
SEAT = Script(_SEAT + """
if not seat or not string.match(seat, '^' .. ARGV[2] .. ' arrives:') then return 0 end
redis.call('HSET', KEYS[1], ARGV[1], ARGV[3])
return 1
""")

# Closes a seat that nobody has arrived at: nobody can arrive there with this generation any more. A seat with an arrival is closed only
# if the entry is named, and its arrival was refused. KEYS: seats, sessions. ARGV: tenant, generation, entry or nothing.
CLOSE_SEAT = Script(_SEAT + """
if known > tonumber(ARGV[2]) then return 1 end
if known == tonumber(ARGV[2]) then
  if string.match(seat, '^%d+ closed:') then return 1 end
  if seat ~= ARGV[2] .. ' arrives:' .. ARGV[3] then return 0 end
end
redis.call('HSET', KEYS[1], ARGV[1], ARGV[2] .. ' closed:')
redis.call('DEL', KEYS[2])
return 1
""")

# A worker's writes, which succeed only while it holds the lease.
_UNDER_LEASE = "if redis.call('HGET', KEYS[1], 'token') ~= ARGV[1] then return 0 end\n"

# The lease: `token` of the worker that has it, `count` that it raises, `milliseconds` without a raise after which another one may take
# it, and for how many milliseconds the shard was `served`. None of this uses the server's clock.

# Takes the lease if nobody has it, or if it is still the one that was seen. Otherwise returns the current one.
# KEYS: lease. ARGV: token, milliseconds, the token and the count that were seen.
TAKE = Script("""
local token, count = redis.call('HGET', KEYS[1], 'token') or '', redis.call('HGET', KEYS[1], 'count') or '0'
if token ~= '' and token ~= ARGV[1] and (token ~= ARGV[3] or count ~= ARGV[4]) then
  return {token, count, redis.call('HGET', KEYS[1], 'milliseconds')}
end
redis.call('HSET', KEYS[1], 'token', ARGV[1], 'milliseconds', ARGV[2])
redis.call('HINCRBY', KEYS[1], 'count', 1)
return {ARGV[1], count, ARGV[2]}
""", without_memory=True)

# Raises the count of a lease that is still held, and adds to the time for which the shard was served.
# KEYS: lease. ARGV: token, milliseconds since the last time.
KEEP = Script(_UNDER_LEASE + """
redis.call('HINCRBY', KEYS[1], 'served', ARGV[2])
return redis.call('HINCRBY', KEYS[1], 'count', 1)
""", without_memory=True)

# Writes replies of some tenants under the ids of their frames; once, even if it is called twice. If earlier replies are still being
# written, the arguments name them: if they are missing, nothing is written, so that no reply is stored before an earlier one.
# KEYS: lease, waiting, then the replies of each tenant. ARGV: token, then for each tenant its number, the weight of the calls, how many
# there are, and the id of the reply before them or nothing; and id, field and bytes of each.
WRITE = Script(_UNDER_LEASE + """
local at, new = 2, {}
for key = 3, #KEYS do
  new[key] = #redis.call('XRANGE', KEYS[key], ARGV[at + 4], ARGV[at + 4]) == 0
  if new[key] and ARGV[at + 3] ~= '' and #redis.call('XRANGE', KEYS[key], ARGV[at + 3], ARGV[at + 3]) == 0 then return 2 end
  at = at + 4 + 3 * tonumber(ARGV[at + 2])
end
at = 2
for key = 3, #KEYS do
  local tenant, weight, last = ARGV[at], ARGV[at + 1], at + 3 + 3 * tonumber(ARGV[at + 2])
  if new[key] then
    for reply = at + 4, last, 3 do redis.call('XADD', KEYS[key], ARGV[reply], ARGV[reply + 1], ARGV[reply + 2]) end
    local waits = tonumber(redis.call('HGET', KEYS[2], tenant) or '0') - tonumber(weight)
    redis.call('HSET', KEYS[2], tenant, math.max(waits, 0))
  end
  at = last + 1
end
return 1
""")

# Writes the reply to an entry with which a tenant leaves or arrives, once, and its last snapshot: that of no state, or of the state that it
# came with. The snapshot before it is dropped. If the tenant has left, its state is kept under its generation.
# KEYS: lease, replies, snapshots, and left if it has left. ARGV: token, entry, tenant, manifest, and generation and manifest of what is left.
WRITE_MOVE = Script(_UNDER_LEASE + """
if #redis.call('XRANGE', KEYS[2], ARGV[2], ARGV[2]) > 0 then return 1 end
redis.call('XADD', KEYS[2], ARGV[2], 'r', '')
redis.call('HDEL', KEYS[3], ARGV[3] .. ':before')
redis.call('HSET', KEYS[3], ARGV[3], ARGV[4])
if KEYS[4] then redis.call('HSET', KEYS[4], ARGV[5], ARGV[6]) end
return 1
""")

# Replaces the last snapshot of a tenant by a new one; the last one becomes the one before it.
# KEYS: lease, snapshots. ARGV: token, tenant, manifest, manifest of the last snapshot or nothing.
KEEP_SNAPSHOT = Script(_UNDER_LEASE + """
local last = redis.call('HGET', KEYS[2], ARGV[2]) or ''
if last == ARGV[3] then return 1 end
if last ~= ARGV[4] then return redis.error_reply('the last snapshot of tenant ' .. ARGV[2] .. ' is another one') end
if last ~= '' then redis.call('HSET', KEYS[2], ARGV[2] .. ':before', last) end
redis.call('HSET', KEYS[2], ARGV[2], ARGV[3])
return 1
""", without_memory=True)

# Drops some of the entries of a stream that are below an id; returns 1 more than how many. KEYS: lease, stream. ARGV: token, id.
DROP = Script(_UNDER_LEASE + """
local dropped = redis.call('XTRIM', KEYS[2], 'MINID', '~', ARGV[2], 'LIMIT', 1000)
if dropped == 0 then redis.call('XTRIM', KEYS[2], 'MINID', '=', ARGV[2]) end
return dropped + 1
""", without_memory=True)

# Drops pieces. KEYS: lease, pieces. ARGV: token, names.
DROP_PIECES = Script(_UNDER_LEASE + """
for at = 2, #ARGV do redis.call('HDEL', KEYS[2], ARGV[at]) end
return 1
""", without_memory=True)

# Writes a field of a hash, or deletes it if no bytes are given. A snapshot makes room, so its pieces are written also without memory.
# KEYS: lease, hash. ARGV: token, field, bytes.
NOTE = Script(_UNDER_LEASE + """
if ARGV[3] == '' then redis.call('HDEL', KEYS[2], ARGV[2]) else redis.call('HSET', KEYS[2], ARGV[2], ARGV[3]) end
return 1
""", without_memory=True)

# An operator's decision on what is set aside, if that is still the same. KEYS: aside, words. ARGV: tenant, what is set aside, word.
SAY = Script("""
if redis.call('HGET', KEYS[1], ARGV[1]) ~= ARGV[2] then return 0 end
redis.call('HSET', KEYS[2], ARGV[1], ARGV[3])
return 1
""", without_memory=True)
