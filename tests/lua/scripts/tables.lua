-- Tables: by place, by name, by value, nested, with what a call gives at the end, more than one flush of 50
local function readings() return 3301, 3302, 3303 end

local pack = {
    name = "left",
    cells = { readings() },
    limits = { low = 2500, high = 4200, [3.5] = "odd", [true] = 1 },
    "first", "second";
    [10] = "tenth",
    readings(),
}

local sines = {
    0, 3, 6, 9, 13, 16, 19, 22, 25, 28, 31, 34, 37, 40, 43, 46, 49, 52, 54, 57, 60, 63, 65, 68, 71, 73,
    76, 78, 81, 83, 85, 88, 90, 92, 94, 96, 98, 100, 102, 104, 106, 107, 109, 111, 112, 113, 115, 116,
    117, 118, 120, 121, 122, 122, 123, 124, 125, 125, 126, 126, 126, 127, 127, 127, 127, readings(),
}

local empty = {}
pack.limits.high, pack.limits.low = nil, pack.limits.low - 1
empty[#empty + 1] = pack
empty[pack.name] = sines[#sines]

assert(#pack.cells == 3 and pack[3] == 3301 and pack[10] == "tenth")
assert(pack.limits.low == 2499 and pack.limits[3.5] == "odd" and #sines == 68 and empty.left == 3303)
