-- Every comparison: with a constant on either side, with none, taken either way
local function class(mv)
    if mv == 0 then return "none" end
    if 0 > mv then return "reversed" end
    if mv < 2500 then return "deep" elseif mv <= 3000 then return "low" end
    if not (mv <= 4200) then return "over" end
    return "good"
end

local function order(a, b)
    if a == b then return 0 end
    if a ~= a or b ~= b then return nil end
    return a < b and -1 or 1
end

local function within(low, mv, high)
    local inside = low <= mv and mv <= high
    while low > high do low = low - 1 end
    return inside, not (low >= high), "a" < "b", 1 == "1"
end

assert(class(0) == "none" and class(-1) == "reversed" and class(3000) == "low" and class(4201) == "over")
assert(order(1, 2) == -1 and order(2, 1) == 1 and order(3, 3) == 0)
local inside, open, text, same = within(1, 2, 3)
assert(inside and open and text and not same)
