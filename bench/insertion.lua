local a, i = {}, 0
while i < 4096 do
  a[i] = i * 7919 % 4096
  i = i + 1
end
i = 1
while i < 4096 do
  local x, j = a[i], i
  while j > 0 and a[j - 1] > x do
    a[j] = a[j - 1]
    j = j - 1
  end
  a[j] = x
  i = i + 1
end
print(a[0] .. " " .. a[1] .. " " .. a[4095])
