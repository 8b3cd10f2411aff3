-- The twin of matrix.ps.
local n, size = 1600, 10
local function matrix()
    local m = {}
    for i = 0, size - 1 do m[i] = {} end
    return m
end
local function fill(m, factor)
    for i = 0, size - 1 do
        for j = 0, size - 1 do m[i][j] = (i * factor + j) % 10 end
    end
end
local function product(a, b)
    local c = matrix()
    for i = 0, size - 1 do
        for j = 0, size - 1 do
            local sum = 0
            for k = 0, size - 1 do sum = a[i][k] * b[k][j] + sum end
            c[i][j] = sum
        end
    end
    return c
end
local x, y = matrix(), matrix()
fill(x, 3)
fill(y, 7)
local trace = 0
for _ = 1, n do trace = (product(x, y)[4][4] + trace) % 100000 end
print(trace)
