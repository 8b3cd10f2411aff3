-- The twin of queue.ps.
local n = 800000
local ring, head, waiting = {}, 0, 0
local function enqueue(item)
    if waiting ~= 64 then
        ring[(head + waiting) % 64] = item
        waiting = waiting + 1
    end
end
local function dequeue()
    if waiting == 0 then return -1 end
    local item = ring[head]
    head = (head + 1) % 64
    waiting = waiting - 1
    return item
end
local sum = 0
for i = 1, n do
    enqueue(i)
    if i % 3 == 0 then enqueue(i) end
    if i % 5 ~= 0 then sum = (dequeue() + sum) % 1000003 end
end
print(sum)
print(waiting)
