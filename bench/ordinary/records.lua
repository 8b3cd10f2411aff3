-- The twin of records.ps.
local n = 8000
local function record(name, age) return { name = name, age = age } end
local people = {
    record('ann', 31), record('bob', 25), record('cid', 47), record('dora', 19), record('ed', 62),
    record('flo', 38), record('gus', 55), record('hal', 44), record('ida', 27), record('jo', 33),
}
local function older(limit)
    local count = 0
    for _, person in ipairs(people) do
        if person.age > limit then count = count + 1 end
    end
    return count
end
local sum = 0
for _ = 1, n do
    for limit = 20, 60, 5 do sum = sum + older(limit) end
    local fourth = people[4]
    fourth.age = (fourth.age + 1) % 70
end
print(sum)
print(people[4].name)
