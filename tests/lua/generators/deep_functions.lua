-- Prints a script with functions in functions as deep as luac goes, depth 198; the last but one sets a variable of the outermost
local DEPTH = 198
print("local reading = 3301")
print(("local function inner() "):rep(DEPTH - 1))
print("reading = reading local function innermost() end")
print((" end"):rep(DEPTH - 1))
