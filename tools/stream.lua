-- The stream of the committed set that Redis holds, as ./export writes it and ./import takes it. From the repository's root:
--
--   redis-cli -e --raw -D '' --eval tools/stream.lua > stream && ./import shop.store < stream
--
-- Not through a pipe: where redis-cli fails it writes nothing, and no bytes are the stream of an empty store.
-- It begins with the commits, c/clock/ticket, and asks for the versions that their values name: other names play no part. A commit without all of its
-- versions is an error, since its transaction would be lost in part. It writes nothing to Redis.

local NUMBER = '([1-9]%d*)'

-- Numbers have up to 20 digits, too many for Lua's: without leading zeros, the longer one is the greater, and of one length the later in the alphabet.
local function below(a, b)
    if #a ~= #b then return #a < #b end
    return a < b
end

local function older(x, y)
    if x.clock ~= y.clock then return below(x.clock, y.clock) end
    return below(x.ticket, y.ticket)
end

local function get(name)
    local value = redis.pcall('GET', name)
    return type(value) == 'string' and value or nil
end

local commits = {}
for _, name in ipairs(redis.call('KEYS', 'c/*')) do
    local clock, ticket = name:match('^c/' .. NUMBER .. '/' .. NUMBER .. '$')
    local keys = clock and get(name)
    if keys then
        commits[#commits + 1] = { name = name, clock = clock, ticket = ticket, keys = keys }
    end
end
table.sort(commits, older)

local stream = {}
local function set(name, value)
    stream[#stream + 1] = '*3\r\n$3\r\nSET\r\n$' .. #name .. '\r\n' .. name .. '\r\n$' .. #value .. '\r\n' .. value .. '\r\n'
end

for _, commit in ipairs(commits) do
    for key in commit.keys:gmatch('[^,]+') do
        local name = 'v/' .. key .. '/' .. commit.clock .. '/' .. commit.ticket
        local value = get(name)
        if not value then return redis.error_reply('ERR ' .. commit.name .. ' is there, and ' .. name .. ' is not') end
        set(name, value)
    end
    set(commit.name, commit.keys)
end
return table.concat(stream)
