-- Functions that do nothing, or only return
local function nothing() end
local function nothing_of_all(...) end
local function ends() return end
local function none() return nil end
local same = function(...) return ... end
do end
while false do end
if nil then nothing() end

assert(nothing() == nil and nothing_of_all(1) == nil and ends() == nil and none() == nil and same(1) == 1)
