-- Prints a script with a function of 60 upvalues, the most that luac allows, and one in it that has the same
local names = {}
for i = 1, 60 do names[i] = "cell" .. i end
local list = table.concat(names, ", ")
print("local " .. list .. " = 1, 2, 3")
print("local function read()")
print("    local function write(value) " .. list .. " = value end")
print("    return write, " .. list)
print("end")
print("read()(4) assert(cell1 == 4 and cell2 == nil)")
