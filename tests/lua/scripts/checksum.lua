-- Sums over a frame's bytes, without bit operators
local function sum(frame)
    local a, b = 1, 0
    for i = 1, #frame do
        a = (a + frame:byte(i)) % 65521
        b = (b + a) % 65521
    end
    return b * 2 ^ 16 + a
end

local function xor(x, y)
    local z, bit = 0, 1
    while x > 0 or y > 0 do
        local p, q = x % 2, y % 2
        if p ~= q then z = z + bit end
        x, y, bit = (x - p) / 2, (y - q) / 2, bit * 2
    end
    return z
end

local function signed(value)
    if value >= 2 ^ 15 then return -(2 ^ 16 - value) end
    return value
end

assert(sum("Wikipedia") == 300286872)
assert(xor(12, 10) == 6 and signed(65535) == -1 and signed(5) == 5)
