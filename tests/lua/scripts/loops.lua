-- Loops: numeric ones with steps, generic ones, while, repeat, break, functions made inside
local function every_other(cells)
    local picked = {}
    for i = 1, #cells, 2 do picked[#picked + 1] = cells[i] end
    for i = #picked, 1, -1 do
        if picked[i] == 0 then break end
    end
    return picked
end

local function readers(names)
    local made = {}
    for place, name in ipairs(names) do
        local reads = 0
        made[place] = function()
            reads = reads + 1
            return name, reads
        end
        if place == 2 then break end
    end
    return made
end

local function settle(read)
    local before, after, tries = nil, read(), 0
    repeat
        local step = function() return after end
        before, after, tries = step(), read(), tries + 1
    until before == after or tries > 9
    while tries > 100 do tries = tries - 1 end
    return after, tries
end

-- an iterator with three values a round
local function pairs_of(list)
    return function(cells, at)
        if cells[at + 1] then return at + 2, cells[at], cells[at + 1] end
    end, list, 1
end

local sum = 0
for _, low, high in pairs_of({ 1, 2, 3, 4 }) do sum = sum + low * high end
assert(sum == 14 and #every_other({ 5, 6, 7 }) == 2)
local made = readers({ "a", "b", "c" })
made[2]()
local name, reads = made[2]()
assert(name == "b" and reads == 2 and made[3] == nil)
local values = { 1, 2, 2 }
assert(settle(function() return table.remove(values, 1) end) == 2)
