-- Counters that share variables: of the function around them, and of the one around that
local total = 0

local function new_counter(step)
    local count = 0
    local function up()
        count = count + step
        total = total + step
        return count
    end
    local function reset()
        local function clear() count = 0 end
        clear()
        return total
    end
    return up, reset
end

-- one child, closed over each time round
local counters = {}
for step = 1, 3 do
    counters[step] = { new_counter(step) }
    counters[step].name = function() return "counter " .. step end
end

assert(counters[1][1]() == 1 and counters[3][1]() == 3 and counters[3][1]() == 6)
assert(counters[3][2]() == 7 and counters[3][1]() == 3)
assert(counters[2].name() == "counter 2")
