local m, n, i = {}, 20000000, 0
for k = 0, 1023 do m[k] = 0 end
while i < n do
  m[i % 1024] = m[i % 1024] + i
  i = i + 1
end
print(string.format("%d %d", m[0], m[1023]))
