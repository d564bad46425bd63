-- Prints a script with 200 local variables, the most that luac allows, and a list that takes the registers up to 249
local names, list = {}, {}
for i = 1, 200 do names[i] = "cell" .. i end
for i = 1, 48 do list[i] = names[201 - i] end
print("local " .. table.concat(names, ", ", 1, 100) .. " = ...")
print("local " .. table.concat(names, ", ", 101, 200))
print("cell200 = { " .. table.concat(list, ", ") .. " }")
print("cell1, cell100 = cell200, cell1")
