-- The twin of words.ps.
local n = 6000
local text = 'the quick brown fox jumps over the lazy dog and the dog barks at the fox while a cat looks at both of them from the roof of a shed'
local counts = {}
local function split(line)
    local from = 1
    while true do
        local at = line:find(' ', from, true)
        local word = line:sub(from, at and at - 1)
        counts[word] = (counts[word] or 0) + 1
        if not at then return end
        from = at + 1
    end
end
for _ = 1, n do split(text) end
local total, kinds = 0, 0
for _, count in pairs(counts) do
    total = total + count
    kinds = kinds + 1
end
print(total)
print(counts['the'])
print(counts['fox'])
print(kinds)
