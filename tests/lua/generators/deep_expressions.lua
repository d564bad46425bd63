-- Prints a script with function expressions in one another as deep as luac goes, depth 98; every one returns the next
local DEPTH = 98
print("local reading = ...")
print("return " .. ("function() return "):rep(DEPTH) .. "reading" .. (" end"):rep(DEPTH))
