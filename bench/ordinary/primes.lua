-- The twin of primes.ps.
local n = 800
local function factors(number)
    local found, divisor = 0, 2
    while divisor * divisor <= number do
        if number % divisor == 0 then
            found = found + 1
            number = number // divisor
        else
            divisor = divisor + 1
        end
    end
    return found + 1
end
local kinds = {}
for _ = 1, n do
    for number = 2, 300 do
        local kind = factors(number)
        kinds[kind] = (kinds[kind] or 0) + 1
    end
end
for kind = 1, 8 do print(kinds[kind]) end
