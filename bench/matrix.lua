local a, b, c, i = {}, {}, {}, 0
while i < 16384 do
  a[i] = i % 100
  b[i] = i % 77
  i = i + 1
end
i = 0
while i < 128 do
  local j = 0
  while j < 128 do
    local sum, k = 0, 0
    while k < 128 do
      sum = sum + a[i * 128 + k] * b[k * 128 + j]
      k = k + 1
    end
    c[i * 128 + j] = sum
    j = j + 1
  end
  i = i + 1
end
print(c[0] .. " " .. c[1] .. " " .. c[16383])
