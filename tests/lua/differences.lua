-- The cases of cases.lua, put to Lua itself, and their images. To be run by lua5.1; tests/lua/differences does.
--   load        loads every case from a binary chunk; prints those that are not answered as stated, and how many were tried
--   images      prints every case as an image in the format of tests/answers, with the check's answer as stated
--   chunk NAME  prints a case's binary chunk
--   rules       for a Lua whose check tells the rule and refuses nothing: prints what to expect, loads, and calls what gives something
--   deep DEPTH  prints a binary chunk whose functions stand in one another down to this depth
local here = arg[0]:match("^(.*/)") or ""
local cases = dofile(here .. "cases.lua")
local GROUPS = { "only_lua", "only_luad", "both_refuse", "executed", "loaded" }
local DEFAULTS = { constants = {}, upvalues = 0, stack = 2, params = 0, vararg = 2, children = {}, luad = "" }

-- The machine's own header, in which sizes must be the ones written here
local HEADER = string.dump(function() end):sub(1, 12)
assert(HEADER == "\27Lua\81\0\1\4\8\4\8\0", "not the Lua 5.1 of a little-endian 64-bit machine")

local function with_defaults(case)
    return setmetatable({}, { __index = function(_, field) return case[field] == nil and DEFAULTS[field] or case[field] end })
end

-- The case with other fields in place of its own
local function changed(case, fields)
    local copy = {}
    for field, value in pairs(case) do copy[field] = value end
    for field, value in pairs(fields) do copy[field] = value end
    return copy
end

-- A number of so many bytes, least byte first
local function bytes(value, count)
    local list = {}
    for i = 1, count do
        list[i] = string.char(value % 256)
        value = math.floor(value / 256)
    end
    return table.concat(list)
end

local function int(value) return bytes(value, 4) end

local function words_of(case)
    local list = {}
    for word in case.words:gmatch("%x+") do list[#list + 1] = word end
    return list
end

local function constant(value)
    if type(value) == "string" then return "\4" .. bytes(#value + 1, 8) .. value .. "\0" end
    assert(value == 0, "a constant is a string or 0")
    return "\3" .. bytes(0, 8)
end

local function list_of(items, encode)
    local list = { int(#items) }
    for _, item in ipairs(items) do list[#list + 1] = encode(item) end
    return table.concat(list)
end

-- A function of a chunk: no name, no lines, no debug information
local function encoded(case)
    case = with_defaults(case)
    return bytes(0, 8) .. int(0) .. int(0) .. string.char(case.upvalues, case.params, case.vararg, case.stack)
        .. list_of(words_of(case), function(word) return int(tonumber(word, 16)) end)
        .. list_of(case.constants, constant) .. list_of(case.children, encoded) .. int(0) .. int(0) .. int(0)
end

local function chunk_of(case) return HEADER .. encoded(case) end

-- What Lua answers: "loaded" and the function, or its reason
local function load(case)
    local loaded, message = loadstring(chunk_of(case), "=case")
    if loaded then return "loaded", loaded end
    return (message:match("^case: (.*) in precompiled chunk$") or message)
end

local function shown(value) return type(value) == "table" and "{" .. tostring(value[1]) .. "}" or tostring(value) end

-- The values that a call gave, after its status
local function all_shown(_, ...)
    local list = {}
    for i = 1, select("#", ...) do list[i] = shown((select(i, ...))) end
    return table.concat(list, " ")
end

local function call(loaded, f) return all_shown(pcall(setfenv(loaded, { f = f }), f)) end

local tried, wrong = 0, 0

local function expect(case, what, expected, found)
    tried = tried + 1
    if found == expected then return end
    wrong = wrong + 1
    print(("%s%s: expected %q, found %q"):format(case.name, what, expected, found))
end

local TRY = {}

function TRY.only_lua(case)
    expect(case, "", "bad code", (load(case)))
    expect(case, ", repaired", "loaded", (load(changed(case, case.but))))
end

function TRY.both_refuse(case) expect(case, "", "bad code", (load(case))) end

function TRY.loaded(case) expect(case, "", "loaded", (load(case))) end

TRY.only_luad = TRY.loaded

function TRY.executed(case)
    local answer, loaded = load(case)
    expect(case, "", "loaded", answer)
    if answer == "loaded" then expect(case, ", called", case.gives, call(loaded, case.f)) end
end

local function each(visit)
    for _, group in ipairs(GROUPS) do
        for _, case in ipairs(cases[group]) do visit(case, group) end
    end
end

local function try_all()
    local count = 0
    each(function(case, group)
        count = count + 1
        TRY[group](case)
    end)
    print(("%d cases, %d answers of Lua, of which %d are not as stated"):format(count, tried, wrong))
    return wrong == 0
end

-- Adds the case's row and words, and those of its children
local function add_rows(image, case, depth)
    case = with_defaults(case)
    local words = words_of(case)
    image.rows[#image.rows + 1] = ("%d %d %d %d %d"):format(depth, #words, #case.constants, case.upvalues, case.stack)
    for _, word in ipairs(words) do image.words[#image.words + 1] = word end
    image.upvalues = image.upvalues + case.upvalues
    for _, child in ipairs(case.children) do add_rows(image, child, depth + 1) end
end

-- How many diagnostics are stated, and the verdict that they make: all but code 3 are errors
local function verdict_of(diagnostics)
    local count, verdict = 0, "ValidForParser"
    for code in diagnostics:gmatch("%d+ %-?%d+ (%d+) %-?%d+") do
        count = count + 1
        if code ~= "3" then verdict = "Invalid" end
    end
    return count, verdict
end

local function line(name, count, items) print(name .. " " .. count .. (items == "" and "" or " " .. items)) end

local function print_image(case, group)
    local image = { rows = {}, words = {}, upvalues = 0 }
    add_rows(image, case, 0)
    local diagnostics = case.luad or ""
    local count, verdict = verdict_of(diagnostics)
    print(("image %s.%s\nincoming 0 0"):format(group, case.name))
    line("table", 20 * #image.rows, table.concat(image.rows, " "))
    line("words", 4 * #image.words, table.concat(image.words, " "))
    print(("buffers %d %d %d"):format(8 * #image.words, 12 * image.upvalues, 16 * count))
    print(("check 0 %d %s"):format(count, verdict))
    line("D", count, diagnostics)
    print()
end

local function named(name)
    local found
    each(function(case) if case.name == name then found = case end end)
    return assert(found, "no such case")
end

-- Where the check only tells which rule is broken: its lines, on standard error, come after the case's
local function tell_rules()
    for _, case in ipairs(cases.only_lua) do
        io.stderr:write(("case %s %d\n"):format(case.name, case.rule))
        local answer, loaded = load(case)
        expect(case, ", without the check", "loaded", answer)
        if case.gives then expect(case, ", called", case.gives, call(loaded)) end
    end
    print(("%d answers of Lua without its check, of which %d are not as stated"):format(tried, wrong))
    return wrong == 0
end

local function nested(depth)
    local case = { words = "0080001e" }
    for _ = 1, depth do case = { words = "0080001e", children = { case } } end
    return case
end

local what, which = ...
if what == "load" then
    os.exit(try_all() and 0 or 1)
elseif what == "rules" then
    os.exit(tell_rules() and 0 or 1)
elseif what == "images" then
    each(print_image)
elseif what == "chunk" then
    io.write(chunk_of(named(which)))
elseif what == "deep" then
    io.write(chunk_of(nested(tonumber(which))))
else
    error("load, rules, images, chunk NAME or deep DEPTH")
end
