-- The twin of join.ps.
local n = 40000
local function line(row)
    local pieces = {}
    for column = 1, 6 do pieces[column] = tostring(row * column) end
    return table.concat(pieces, ', ')
end
local sum = 0
for i = 1, n do sum = sum + #line(i % 1000) end
print(sum)
print(line(999))
