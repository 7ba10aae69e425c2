local function double(a, at, len)
  if len == 1 then
    a[at] = a[at] * 2
  else
    local half = len // 2
    double(a, at, half)
    double(a, at + half, len - half)
  end
end
local m, i = {}, 0
while i < 1048576 do
  m[i] = i
  i = i + 1
end
double(m, 0, 1048576)
print(m[0] .. " " .. m[1] .. " " .. m[1048575])
