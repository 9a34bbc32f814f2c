"""The scripts of the directory. Redis runs each as one step; each may be run twice, and late."""

from bpfhost.shards.connection import Script

# KEYS of those that take or free tenant numbers: customers, loads, numbers, generation, moves, beats, drained. A shard is offered while
# it is served (beats) and not drained. A shard's numbers are a string of 0 and 1, by tenant.
_GIVE = """
local function is_offered(shard)
  return redis.call('HEXISTS', KEYS[6], shard) == 1 and redis.call('HEXISTS', KEYS[7], shard) == 0
end
local function numbers_of(shard)
  return redis.call('HGET', KEYS[3], shard) or string.rep('0', 64)
end
local function give_of(shard)
  local numbers = numbers_of(shard)
  local free = string.find(numbers, '0', 1, true)
  if not free then return nil, 'full' end
  redis.call('HSET', KEYS[3], shard, string.sub(numbers, 1, free - 1) .. '1' .. string.sub(numbers, free + 1))
  redis.call('ZINCRBY', KEYS[2], 1, shard)
  return shard .. ' ' .. (free - 1) .. ' ' .. redis.call('INCR', KEYS[4])
end
local function give_of_least(but)
  local why = 'no shards'
  for _, shard in ipairs(redis.call('ZRANGE', KEYS[2], 0, -1)) do
    if shard ~= but and is_offered(shard) then return give_of(shard) end
    if shard ~= but then why = 'not served' end
  end
  return nil, why
end
local function take_back(seat)
  local shard, tenant = string.match(seat, '^(%d+) (%d+) ')
  local numbers = numbers_of(shard)
  redis.call('HSET', KEYS[3], shard, string.sub(numbers, 1, tenant) .. '0' .. string.sub(numbers, tenant + 2))
  if redis.call('ZSCORE', KEYS[2], shard) then redis.call('ZINCRBY', KEYS[2], -1, shard) end
end
"""

# The seat of a customer, which is given one if it has none. ARGV: name.
PLACE = Script(_GIVE + """
local seat = redis.call('HGET', KEYS[1], ARGV[1])
if seat then return {seat} end
local given, why = give_of_least('')
if not given then return {false, why} end
redis.call('HSET', KEYS[1], ARGV[1], given)
return {given}
""")

# The next seat of a customer that is moved: one of the shard that is named, or of the least loaded other one; `nowhere` to remove it.
# ARGV: name, shard or nothing, `nowhere` or nothing.
BEGIN_MOVE = Script(_GIVE + """
local seat = redis.call('HGET', KEYS[1], ARGV[1])
if not seat then return {false, 'unknown'} end
local next = redis.call('HGET', KEYS[5], ARGV[1])
if next then return {seat, next} end
if ARGV[3] ~= '' then
  redis.call('HSET', KEYS[5], ARGV[1], ARGV[3])
  return {seat, ARGV[3]}
end
local here, given, why = string.match(seat, '^%d+')
if ARGV[2] == here then return {false, 'here'} end
if ARGV[2] ~= '' and not redis.call('ZSCORE', KEYS[2], ARGV[2]) then return {false, 'no shard'} end
if ARGV[2] ~= '' and not is_offered(ARGV[2]) then return {false, 'not served'} end
if ARGV[2] == '' then given, why = give_of_least(here) else given, why = give_of(ARGV[2]) end
if not given then return {false, why == 'no shards' and 'no other' or why} end
redis.call('HSET', KEYS[5], ARGV[1], given)
return {seat, given}
""")

# Ends a move from a seat to the next one: the customer has that, and the old one is free. ARGV: name, seat, next seat.
END_MOVE = Script(_GIVE + """
local seat, next = redis.call('HGET', KEYS[1], ARGV[1]), redis.call('HGET', KEYS[5], ARGV[1])
if seat ~= ARGV[2] or next ~= ARGV[3] then return 0 end
if next == 'nowhere' then redis.call('HDEL', KEYS[1], ARGV[1]) else redis.call('HSET', KEYS[1], ARGV[1], next) end
redis.call('HDEL', KEYS[5], ARGV[1])
take_back(seat)
return 1
""")

# Turns a move whose next seat is closed back to the shard that the customer has left, and gives the customer another seat there. A move
# that is another one by now stays as it is, and its next seat is returned. ARGV: name, seat, next seat.
TURN_MOVE = Script(_GIVE + """
local seat, next = redis.call('HGET', KEYS[1], ARGV[1]), redis.call('HGET', KEYS[5], ARGV[1])
if seat ~= ARGV[2] or next ~= ARGV[3] then return {next or '', ''} end
local given, why = give_of(string.match(seat, '^%d+'))
if not given then return {next, why} end
redis.call('HSET', KEYS[5], ARGV[1], given)
if next ~= 'nowhere' then take_back(next) end
return {given, ''}
""")

# Registers a shard, with the name that was made with it; a shard that is known by another name stays as it is, and its name is returned.
# KEYS: loads, incarnations, servers. ARGV: shard, name, URL or nothing.
REGISTER = Script("""
local known = redis.call('HGET', KEYS[2], ARGV[1])
if known and known ~= ARGV[2] then return known end
redis.call('HSET', KEYS[2], ARGV[1], ARGV[2])
redis.call('ZADD', KEYS[1], 'NX', 0, ARGV[1])
if ARGV[3] == '' then redis.call('HDEL', KEYS[3], ARGV[1]) else redis.call('HSET', KEYS[3], ARGV[1], ARGV[3]) end
return ARGV[2]
""")

# Records that a shard is served. KEYS: incarnations, beats. ARGV: shard, name.
BEAT = Script("""
if redis.call('HGET', KEYS[1], ARGV[1]) ~= ARGV[2] then return 0 end
return redis.call('HINCRBY', KEYS[2], ARGV[1], 1)
""", without_memory=True)

# Removes a shard that has no customers and is not served; lost customers are removed with it.
# KEYS: those of the directory, incarnations, servers. ARGV: shard, `lost` or nothing.
REMOVE_SHARD = Script(_GIVE + """
if not redis.call('ZSCORE', KEYS[2], ARGV[1]) then return 'unknown' end
if redis.call('HEXISTS', KEYS[6], ARGV[1]) == 1 then return 'served' end
local mine = '^' .. ARGV[1] .. ' '
local customers, moves = redis.call('HGETALL', KEYS[1]), redis.call('HGETALL', KEYS[5])
if ARGV[2] == '' and tonumber(redis.call('ZSCORE', KEYS[2], ARGV[1])) > 0 then return 'customers' end
for at = 2, #moves, 2 do
  if string.match(moves[at], mine) then return 'moves' end
end
for at = 1, #moves, 2 do
  if string.match(redis.call('HGET', KEYS[1], moves[at]), mine) then
    if moves[at + 1] ~= 'nowhere' then take_back(moves[at + 1]) end
    redis.call('HDEL', KEYS[5], moves[at])
  end
end
for at = 1, #customers, 2 do
  if string.match(customers[at + 1], mine) then redis.call('HDEL', KEYS[1], customers[at]) end
end
redis.call('ZREM', KEYS[2], ARGV[1])
for _, at in ipairs({3, 7, 8, 9}) do redis.call('HDEL', KEYS[at], ARGV[1]) end
return 'removed'
""")
