-- Variable arguments: used, only declared (then there is `arg`), handed on, counted
local function count(...) return select("#", ...) end

local function old_style(...)
    return arg.n, arg[1]
end

local function first_and_rest(first, ...)
    local second, third = ...
    return first, { ... }, second, third
end

local function average(...)
    local sum = 0
    for _, value in ipairs({ ... }) do sum = sum + value end
    return sum / math.max(1, count(...))
end

local function traced(call, ...)
    print(...)
    return call(...)
end

local pack = ...
assert(pack == nil and count(nil, nil) == 2)
local n, one = old_style("x", "y")
assert(n == 2 and one == "x")
local first, rest, second = first_and_rest(1, 2, 3)
assert(first == 1 and #rest == 2 and second == 2)
assert(average(3300, 3310) == 3305 and average() == 0)
assert(traced(average, 1, 2, 3) == 2)
