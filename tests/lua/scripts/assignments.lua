-- Several values at once: assigned, swapped, returned, cut to one, left out
local function limits() return 2500, 4200, true end

local low, high, known, missing = limits()
local a, b, c
local x, y, z = 1, (limits())
local cells, at = { 3301, 3302, 3303 }, 1

low, high = high, low
at, cells[at] = at + 1, 0
a, b, c = limits(), nil
cells.low, cells.high = limits()
relay, fan = true, false

assert(low == 4200 and high == 2500 and known == true and missing == nil)
assert(at == 2 and cells[1] == 0 and cells.high == 4200)
assert(a == 2500 and b == nil and c == nil and x == 1 and y == 2500 and z == nil)
assert(relay and not fan)
