-- test.lua - queens, numbers, texts, coroutines, files and the input to its end

local function queens(n)
  local found, column, up, down = 0, {}, {}, {}
  local function place(row)
    if row > n then
      found = found + 1
      return
    end
    for c = 1, n do
      if not (column[c] or up[row + c] or down[row - c]) then
        column[c], up[row + c], down[row - c] = true, true, true
        place(row + 1)
        column[c], up[row + c], down[row - c] = nil, nil, nil
      end
    end
  end
  place(1)
  return found
end

print(_VERSION, "6 queens", queens(6))
print(7 // 2, 7 / 2, 2 ^ 53, 1e308 * 10, math.pi, math.maxinteger)
print(("the proved kernel"):gsub("%w+", string.upper), ("%5.2f|%-6s|%x"):format(2.345, "ab", 255))

local words = coroutine.wrap(function()
  for word in ("processes semaphores messages ports"):gmatch("%a+") do
    coroutine.yield(word)
  end
end)
local list = {}
for word in words do
  list[#list + 1] = word
end
table.sort(list, function(a, b) return #a < #b end)
print(table.concat(list, " "))

local file = assert(io.open("notes", "w"))
for k = 1, 100 do
  file:write("note ", k, "\n")
end
file:close()
file = assert(io.open("notes", "a+"))
file:write("the last\n")
file:seek("set", 7)
print(file:read("l"), file:seek("end"))
file:close()
print(io.open("none"))
print(select(2, pcall(error, { code = 5 })).code)
print(select(2, pcall(function() return nil + 1 end)))

local count, letters = 0, 0
for line in io.lines() do
  count, letters = count + 1, letters + #line
end
print(count .. " lines", letters .. " letters", collectgarbage("count") < 300)
