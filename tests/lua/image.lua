-- Reads a binary chunk of Lua 5.1 and prints its image in the format of tests/answers, without answers.
-- usage: lua5.1 tests/lua/image.lua LABEL CHUNK
-- The chunk's numbers are little-endian, ints and instructions of 4 bytes; anything unexpected is an error.
local label, path = ...

local function read_file(name)
    local file = assert(io.open(name, "rb"))
    local bytes = file:read("*a")
    file:close()
    return bytes
end

local bytes, at = read_file(path), 1
local size_t_bytes, number_bytes

local function fail(what) error(("%s: byte %d: %s"):format(path, at - 1, what), 0) end

-- The next so many bytes, as a string
local function take(count)
    if #bytes - at + 1 < count then fail("the chunk is cut off") end
    at = at + count
    return bytes:sub(at - count, at - 1)
end

-- An unsigned number of so many bytes, least byte first
local function unsigned(count)
    local value = 0
    for i, byte in ipairs({ take(count):byte(1, -1) }) do value = value + byte * 256 ^ (i - 1) end
    return value
end

local function byte() return unsigned(1) end

local function int()
    local value = unsigned(4)
    if value >= 2 ^ 31 then fail("a negative number") end
    return value
end

local function skip_string() take(unsigned(size_t_bytes)) end

local function read_header()
    if take(4) ~= "\27Lua" then fail("no binary chunk") end
    if byte() ~= 0x51 or byte() ~= 0 then fail("not of Lua 5.1") end
    if byte() ~= 1 then fail("not little-endian") end
    if byte() ~= 4 then fail("not an int of 4 bytes") end
    size_t_bytes = byte()
    if size_t_bytes ~= 4 and size_t_bytes ~= 8 then fail("not a size_t of 4 or 8 bytes") end
    if byte() ~= 4 then fail("not instructions of 4 bytes") end
    number_bytes = byte()
    if number_bytes ~= 8 or byte() ~= 0 then fail("not floating-point numbers of 8 bytes") end
end

-- Passes over a constant
local function skip_constant()
    local kind = byte()
    if kind == 1 then take(1)
    elseif kind == 3 then take(number_bytes)
    elseif kind == 4 then skip_string()
    elseif kind ~= 0 then fail("no such constant") end
end

local function read_words(words)
    local count = int()
    for _ = 1, count do words[#words + 1] = ("%08x"):format(unsigned(4)) end
    return count
end

local function skip_debug()
    take(4 * int())
    for _ = 1, int() do
        skip_string()
        take(8)
    end
    for _ = 1, int() do skip_string() end
end

-- Adds a prototype and, after it, its children: a row each, and their words
local function read_function(image, depth)
    skip_string()
    take(8)
    local upvalues, _, _, stack = byte(), byte(), byte(), byte()
    local words = read_words(image.words)
    local constants = int()
    for _ = 1, constants do skip_constant() end
    image.upvalues = image.upvalues + upvalues
    image.rows[#image.rows + 1] = ("%d %d %d %d %d"):format(depth, words, constants, upvalues, stack)
    for _ = 1, int() do read_function(image, depth + 1) end
    skip_debug()
end

local function line(name, len, items)
    print(name .. " " .. len .. (len > 0 and " " .. table.concat(items, " ") or ""))
end

read_header()
local image = { rows = {}, words = {}, upvalues = 0 }
read_function(image, 0)
if at <= #bytes then fail("bytes after the chunk") end
print("image " .. label)
print("incoming 0 0")
line("table", 20 * #image.rows, image.rows)
line("words", 4 * #image.words, image.words)
print(("buffers %d %d 0\n"):format(8 * #image.words, 12 * image.upvalues))
