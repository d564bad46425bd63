-- Prints a script with tables of more than 511 flushes of 50 items, whose last SETLISTs have C = 0. Most items are nil, which takes few words.
local function items(count)
    local list = {}
    for i = 1, count do list[i] = i % 5000 == 0 and tostring(i) or "nil" end
    return table.concat(list, ", ")
end

print("local log = { " .. items(25600) .. " }")
print("local longer = { " .. items(25600) .. ", tostring(log) }")
print("assert(log[25000] == 25000 and longer[25601] == tostring(log))")
