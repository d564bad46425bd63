-- A report of a pack, in which everything is joined or turned round
local function percent(value, whole) return -(-value * 100 / whole) end

local function bar(share)
    local full = math.floor(share / 10)
    return "[" .. ("#"):rep(full) .. ("."):rep(10 - full) .. "]"
end

local function line(cell, mv, low, high)
    local share = percent(mv - low, high - low)
    return "cell " .. cell .. ": " .. mv .. " mV " .. bar(share) .. (share ^ 2 > 8100 and " !" or "")
end

local function report(cells, low, high)
    local lines = { n = 0 }
    for cell, mv in pairs(cells) do
        lines.n = lines.n + 1
        lines[lines.n] = line(cell, mv, low, high)
    end
    return table.concat(lines, "\n"), lines.n % 2 == 0
end

local text, even = report({ 3350, 4190 }, 2500, 4200)
assert(text == "cell 1: 3350 mV [#####.....]\ncell 2: 4190 mV [#########.] !" and even)
