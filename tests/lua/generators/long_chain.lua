-- Prints a script with a long chain of elseif in a loop: each branch jumps to the end, and the loop back to its start
print("local sum = 0")
print("for code = 0, 300 do")
for code = 0, 299 do
    print(("    %s code == %d then sum = sum + %d"):format(code == 0 and "if" or "elseif", code, code % 7))
end
print("    else sum = -sum end")
print("end")
print("while sum < 0 do")
print(("    sum = sum + 1 sum = sum * 1 "):rep(100))
print("end")
print("assert(sum >= 0)")
