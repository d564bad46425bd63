-- Prints a script with more constants than an RK operand can name: those from 256 up are loaded first
print("local names, sum = {}, 0")
for i = 1, 270 do print(("names.cell%d = %d"):format(i, 3000 + i)) end
print("names.last, names[0.25] = names.cell270 + 0.5, 'last'")
print("if names.cell1 == 77.5 or names.cell2 < 88.5 then sum = 99.5 - names.cell3 end")
print("function set_last(value) last = value end")
print("set_last(names.last) assert(last == 3270.5 and sum == 0)")
