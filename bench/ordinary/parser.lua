-- The twin of parser.ps.
local n = 8000
local source = '2*(3+4)*5+(7+8*2)*(1+1)+9*9'
local place, expression = 1, nil
local function peek() return source:byte(place) or 0 end
local function advance() place = place + 1 end
local function number()
    local value = 0
    while peek() >= 48 and peek() <= 57 do
        value = value * 10 + peek() - 48
        advance()
    end
    return value
end
local function factor()
    if peek() ~= 40 then return number() end
    advance()
    local value = expression()
    advance()
    return value
end
local function term()
    local value = factor()
    while peek() == 42 do
        advance()
        value = value * factor()
    end
    return value
end
function expression()
    local value = term()
    while peek() == 43 do
        advance()
        value = value + term()
    end
    return value
end
local sum = 0
for _ = 1, n do
    place = 1
    sum = sum + expression()
end
print(sum)
