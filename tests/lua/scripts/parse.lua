-- Reads settings: lines of `name = value`, sections in brackets, remarks after a number sign
local function value_of(text)
    if text == "true" then return true end
    if text == "false" then return false end
    return tonumber(text) or text
end

local function parse(source)
    local settings, section = {}, nil
    for line in source:gmatch("[^\n]+") do
        line = line:gsub("#.*", ""):match("^%s*(.-)%s*$")
        local name = line:match("^%[(%w+)%]$")
        if name then
            section = {}
            settings[name] = section
        elseif line ~= "" then
            local key, value = line:match("^(%w+)%s*=%s*(.+)$")
            if not key then return nil, "not a setting: " .. line end
            (section or settings)[key] = value_of(value)
        end
    end
    return settings
end

local settings = parse("pack = left\n[limits]\nhigh = 4180 # mV\nwarn = true\n")
assert(settings.pack == "left" and settings.limits.high == 4180 and settings.limits.warn)
local none, reason = parse("[limits\n")
assert(none == nil and reason == "not a setting: [limits")
