-- The twin of stack_machine.ps.
local n = 25000
local stack, top = {}, 0
local function push(value)
    stack[top] = value
    top = top + 1
end
local function pull()
    top = top - 1
    return stack[top]
end
local instructions = {
    PLUS = function() push(pull() + pull()) end,
    TIMES = function() push(pull() * pull()) end,
    MINUS = function() local last = pull() push(pull() - last) end,
    TWICE = function() local last = pull() push(last) push(last) end,
    CUT = function() push(math.fmod(pull(), 9973)) end,
}
local code = { 3, 4, 'PLUS', 'TWICE', 'TIMES', 17, 'MINUS', 'CUT', 29, 'TIMES', 5, 'PLUS', 'CUT' }
local function go()
    for _, it in ipairs(code) do
        if type(it) == 'number' then push(it) else instructions[it]() end
    end
    return pull()
end
local result = 0
for _ = 1, n do result = (result + go()) % 65521 end
print(result)
