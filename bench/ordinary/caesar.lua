-- The twin of caesar.ps.
local n = 4000
local plain = 'Veni, vidi, vici: a ship of state sails on, over the seas of prose'
local function turn(from, shift)
    local made = {}
    for at = 1, #from do
        local code = from:byte(at)
        if code >= 97 and code <= 122 then
            code = (code - 97 + shift) % 26 + 97
        elseif code >= 65 and code <= 90 then
            code = (code - 65 + shift) % 26 + 65
        end
        made[at] = string.char(code)
    end
    return table.concat(made)
end
local same = 0
for i = 1, n do
    local key = i % 26
    if turn(turn(plain, key), 26 - key) == plain then same = same + 1 end
end
print(same)
print(turn(plain, 13))
