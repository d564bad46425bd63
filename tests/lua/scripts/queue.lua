-- Frames that wait for the bus, as objects with methods
local Queue = {}
Queue.__index = Queue

function Queue.new(most)
    return setmetatable({ first = 1, last = 0, most = most }, Queue)
end

function Queue:len() return self.last - self.first + 1 end

function Queue:push(frame)
    if self:len() >= self.most then return false end
    self.last = self.last + 1
    self[self.last] = frame
    return true
end

function Queue:pop()
    if self:len() == 0 then return nil end
    local frame = self[self.first]
    self[self.first] = nil
    self.first = self.first + 1
    return frame
end

local queue = Queue.new(2)
assert(queue:push("a") and queue:push("b") and not queue:push("c"))
assert(queue:pop() == "a" and queue:len() == 1 and queue:pop() == "b" and queue:pop() == nil)
