-- Tasks that take turns, as coroutines
tasks = {}

function add(name, body)
    tasks[#tasks + 1] = { name = name, thread = coroutine.create(body) }
end

function round()
    local alive = 0
    for i = #tasks, 1, -1 do
        local task = tasks[i]
        local fine, wait = coroutine.resume(task.thread, task.name)
        if not fine then error(task.name .. ": " .. tostring(wait)) end
        if coroutine.status(task.thread) == "dead" then
            table.remove(tasks, i)
        else
            task.wait, alive = wait, alive + 1
        end
    end
    return alive
end

local trace = {}
add("blink", function(name)
    for i = 1, 2 do
        trace[#trace + 1] = name .. i
        coroutine.yield(i * 0.5)
    end
end)
add("once", function() trace[#trace + 1] = "once" end)
while round() > 0 do end
assert(table.concat(trace, " ") == "once blink1 blink2")
