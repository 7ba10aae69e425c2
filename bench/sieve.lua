local marks, count, i = {}, 0, 2
for k = 0, 1999999 do marks[k] = 0 end
while i < 2000000 do
  if marks[i] == 0 then
    count = count + 1
    local k = i + i
    while k < 2000000 do
      marks[k] = 1
      k = k + i
    end
  end
  i = i + 1
end
print(count)
