-- Which cells of a pack are to be bled, and for how long
local LIMIT_MV, SPREAD_MV = 4180, 12

local function extremes(cells)
    local low, high = cells[1], cells[1]
    for i = 2, #cells do
        if cells[i] < low then low = cells[i] end
        if cells[i] > high then high = cells[i] end
    end
    return low, high
end

local function bleed_seconds(mv, low)
    local above = mv - low - SPREAD_MV
    if above <= 0 then return 0 end
    return math.floor(above * 3.5 + 0.5)
end

local function plan(cells)
    local low, high = extremes(cells)
    local seconds = {}
    if high - low <= SPREAD_MV and high < LIMIT_MV then return seconds end
    for i = #cells, 1, -1 do
        seconds[i] = bleed_seconds(cells[i], low)
    end
    return seconds
end

assert(plan({ 4100, 4105, 4112 })[3] == nil)
assert(plan({ 4100, 4105, 4150 })[3] == 133)
