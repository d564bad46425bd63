-- A charger's states, each going on to the next by a tail call
local idle, charging, done

function idle(readings, i)
    if not readings[i] then return "idle", i end
    if readings[i] < 3000 then return idle(readings, i + 1) end
    return charging(readings, i + 1)
end

function charging(readings, i)
    local mv = readings[i]
    if mv == nil then return "charging", i end
    if mv >= 4200 then return done(readings, i) end
    return charging(readings, i + 1)
end

function done(readings, i)
    readings.at = i
    return tostring("done")
end

local function ended(readings) return (idle(readings, 1)) end

assert(ended({}) == "idle" and ended({ 2900, 3100, 3900 }) == "charging")
local readings = { 3300, 4000, 4200 }
assert(ended(readings) == "done" and readings.at == 3)
