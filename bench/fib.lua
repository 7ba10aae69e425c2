local function fib(r, n)
  if n < 2 then
    r[0] = r[0] + n
  else
    fib(r, n - 1)
    fib(r, n - 2)
  end
end
local r = { [0] = 0 }
for k = 1, 20 do fib(r, 24) end
print(r[0])
