-- Conditions as values: and, or, not, comparisons that are kept
local function alarm(mv, celsius, forced)
    local hot = celsius > 60
    local cold = not (celsius >= 0)
    local empty, full = mv < 2500, mv >= 4200
    local reason = hot and "hot" or cold and "cold" or empty and "empty" or full and "full"
    local is_alarm = forced or reason ~= false
    return is_alarm, reason or forced and "forced"
end

local function default(value, other)
    value = value or other
    local kept = value and value ~= "" and value
    return kept == false and other or kept
end

local function both(p, q) return p and q, not p == not q, p == nil or q end

local is_alarm, reason = alarm(3300, 61, false)
assert(is_alarm == true and reason == "hot")
assert(select(2, alarm(3300, 20, true)) == "forced" and alarm(3300, 20, false) == false)
assert(default(nil, 1) == 1 and default("", 2) == 2 and default("x", 3) == "x")
assert(both(1, 2) == 2 and select(3, both(nil, 1)) == true)
