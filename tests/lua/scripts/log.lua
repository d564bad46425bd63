-- A log of the last lines, with a level below which nothing is kept
local function new_log(size, least)
    local lines, count = {}, 0
    local function keep(line)
        lines[count % size + 1] = line
        count = count + 1
    end
    local function write(level, format, ...)
        if level < least then return end
        keep(level .. " " .. string.format(format, ...) .. "\n")
    end
    local function dump()
        local text = ""
        for i = math.max(0, count - size), count - 1 do
            text = text .. lines[i % size + 1]
        end
        return text, count
    end
    return write, dump
end

local write, dump = new_log(2, 1)
write(0, "not kept")
write(1, "cell %d at %d mV", 7, 3301)
write(2, "relay %s", "open")
write(3, "fan on")
local text, count = dump()
assert(text == "2 relay open\n3 fan on\n" and count == 3)
