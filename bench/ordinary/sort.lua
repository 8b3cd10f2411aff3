-- The twin of sort.ps.
local n, seed = 2400, 12345
local function random()
    seed = (seed * 1103 + 12849) % 65536
    return seed
end
local function insertion(list)
    for i = 1, #list do
        local value, j = list[i], i - 1
        while j >= 0 and list[j] > value do
            list[j + 1] = list[j]
            j = j - 1
        end
        list[j + 1] = value
    end
    return list
end
local check = 0
for _ = 1, n do
    local numbers = {}
    for i = 0, 59 do numbers[i] = random() end
    local sorted = insertion(numbers)
    check = (check + sorted[0] + sorted[59]) % 1000000
end
print(check)
