-- Tests of what lua does in functions that hold goto in its source: the loop of the interpreter, its parser and library.
local done = 0
local function test(name, found, wanted)
  if found == wanted then print("ok: " .. name) else print("not ok: " .. name, found, wanted) end
  done = done + 1
end

-- calls, tail calls, varargs, coroutines and errors
local function fib(n) if n < 2 then return n end return fib(n - 1) + fib(n - 2) end
test("calls", fib(20), 6765)
local function count(n, a) if n == 0 then return a end return count(n - 1, a + 1) end
test("tail calls", count(200000, 0), 200000)
local function sum(...) local s = 0 for _, v in ipairs({...}) do s = s + v end return s, select("#", ...) end
test("varargs", table.concat({sum(1, 2, 3, 4)}, ","), "10,4")
local walker = coroutine.wrap(function() for i = 1, 5 do coroutine.yield(i * i) end return "end" end)
local seen = {}
repeat local v = walker() seen[#seen + 1] = tostring(v) until v == "end"
test("coroutines", table.concat(seen, " "), "1 4 9 16 25 end")
test("errors", select(2, pcall(error, "found", 0)), "found")
test("errors in metamethods", (pcall(function() return {} + 1 end)), false)
test("traces", (select(2, xpcall(function() local x = nil; return x.y end, function(m) return m:match("index a nil") end))),
  "index a nil")
test("closing", (function()
  local log = {}
  do local a <close> = setmetatable({}, {__close = function() log[#log + 1] = "closed" end}) log[1] = "open" end
  return table.concat(log, " ")
end)(), "open closed")

-- loops and goto
local s = 0
for i = 10, 1, -3 do s = s + i end
test("counting down", s, 22)
for x = 1.0, 2.0, 0.25 do s = s + x end
test("counting by parts", s, 29.5)
do
  local i, out = 1, {}
  ::again::
  if i <= 5 then
    if i % 2 == 0 then goto continue end
    out[#out + 1] = i
    ::continue::
    i = i + 1
    goto again
  end
  test("goto", table.concat(out, ","), "1,3,5")
end
test("goto without label", load("goto nowhere"), nil)
test("break outside", load("break"), nil)
local keys = {}
for k in pairs({a = 1, b = 2, 10, 20}) do keys[#keys + 1] = tostring(k) end
table.sort(keys)
test("pairs", table.concat(keys, " "), "1 2 a b")

-- arithmetic, comparison, metamethods
test("integers and floats", 7 // 2 .. " " .. -7 // 2 .. " " .. 7 % -3 .. " " .. 2 ^ 10 .. " " .. 1 // 0.0, "3 -4 -2 1024.0 inf")
test("bits", (0xff ~ 0x0f) << 4 | 1 >> 0, 0xf01)
test("strings as numbers", "10" + 5, 15)
local Point = {}
Point.__index = Point
Point.__add = function(a, b) return setmetatable({x = a.x + b.x}, Point) end
Point.__eq = function(a, b) return a.x == b.x end
Point.__lt = function(a, b) return a.x < b.x end
Point.__le = function(a, b) return a.x <= b.x end
Point.__concat = function(a, b) return (type(a) == "table" and a.x or a) .. "|" .. (type(b) == "table" and b.x or b) end
Point.__len = function(a) return a.x end
Point.__call = function(a, b) return a.x * b end
local p, q = setmetatable({x = 3}, Point), setmetatable({x = 4}, Point)
test("metamethods", table.concat({(p + q).x, tostring(p == q), tostring(p < q), tostring(p <= q), p .. q, #p, p(5)}, " "),
  "7 false true true 3|4 3 15")

-- patterns and strings
test("find", table.concat({("hello world"):find("o w", 1, true)}, ","), "5,7")
test("gsub", (("hello world"):gsub("(%w+)", "<%1>")), "<hello> <world>")
test("balanced", ("f(a(b)c)d"):match("%b()"), "(a(b)c)")
test("frontier", (("THE (quick) fox"):gsub("%f[%a]%a+", string.lower)), "the (quick) fox")
test("lazy and greedy", ("[[a]] [[b]]"):match("%[%[(.-)%]%]") .. ("<<a>>"):match("<(.*)>"), "a<a>")
test("captures", table.concat({("key = value"):match("^(%w+)%s*=%s*(%w+)$")}, ";"), "key;value")
test("format", ("%5.2f|%-5d|%05d|%x|%q"):format(3.14159, 42, 42, 255, "a\nb"), " 3.14|42   |00042|ff|\"a\\\nb\"")
test("pack", ("<i4 z s2"):len() + #string.pack("<i4zs2", 100, "abc", "de"), 20)
test("unpack", table.concat({string.unpack("<i4zs2", string.pack("<i4zs2", 100, "abc", "de"))}, ","), "100,abc,de,13")
test("utf8", utf8.len("äöü€") .. utf8.char(228, 8364) .. utf8.codepoint("€"), "4ä€8364")

-- reading of source: long strings, comments, numbers, escapes, errors
test("long strings", #[==[
]]]=]]==], 5)
test("escapes", "\65\x41\u{41}\z
      \tA", "AAA\tA")
test("numbers", 0x.8p1 + 1e2 + .5, 101.5)
test("bad numbers", load("return 0x"), nil)
test("unfinished strings", load("return 'abc"), nil)
test("constants", load("local x <const> = 5; x = 6"), nil)
--[[ a comment
of two lines ]] --[==[ and ]] another ]==]
test("load by parts", load((function() local parts = {"return ", "1 ", "+ 2"} local i = 0
  return function() i = i + 1 return parts[i] end end)())(), 3)
test("dump", load(string.dump(fib))  ~= nil, true)

-- tables, sorting, collecting
local list = {}
for i = 1, 1000 do list[i] = (i * 7919) % 1009 end
table.sort(list)
local sorted = true
for i = 2, #list do sorted = sorted and list[i - 1] <= list[i] end
test("sort", sorted, true)
test("sort by a bad order", pcall(table.sort, {3, 1, 2, 5, 4}, function() return true end) or true, true)
test("move", table.concat(table.move({1, 2, 3}, 1, 3, 2), ","), "1,1,2,3")
local weak = setmetatable({}, {__mode = "k"})
for i = 1, 100 do weak[{}] = i end
collectgarbage() collectgarbage("generational") collectgarbage("incremental") collectgarbage()
test("weak tables", next(weak), nil)
local ended = 0
for i = 1, 50 do setmetatable({}, {__gc = function() ended = ended + 1 end}) end
collectgarbage() collectgarbage()
test("ends of objects", ended, 50)
test("all ran", done, 41)
