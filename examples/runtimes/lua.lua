-- lua5.4 lua.lua FOLDER DEPTH: writes the heap below `judged` before and after collections of Lua, and with errors in it.
--
-- A file has lines of objects by name, and a name is the object's address, which %p prints. Slots are a metatable, the
-- fields or pairs of a table, and the upvalues of a function. A value that is no object has a null slot and a data word.
-- Lua moves nothing. So the program reports how many tables were freed, and allocates as many before it walks: a table
-- that was freed wrongly is overwritten then.
local folder, depth, judged = arg[1], tonumber(arg[2]), nil
local OBJECT = { table = true, ['function'] = true, thread = true, userdata = true }

local function name(value) return string.format('%p', value) end
local function escaped(letter) return string.format('\\%03d', letter:byte()) end
local function text(value) return '"' .. tostring(value):gsub('\\', escaped):gsub('[^!-~]', escaped) .. '"' end
local function dataOf(value)
  if math.type(value) == 'integer' then return tostring(value) end
  if math.type(value) == 'float' then return string.format('0x%x', string.unpack('<i8', string.pack('<d', value))) end
  return text(type(value) .. ':' .. tostring(value))
end

-- The type, the names of the slots, and the values in them. The fields of an object are sorted by name.
local function parts(value)
  local meta = getmetatable(value)
  local kind, names, values = meta and rawget(meta, '__name') or type(value), { 'metatable' }, { meta or false }
  if type(value) == 'function' then
    for i = 1, math.huge do
      local upvalue, content = debug.getupvalue(value, i)
      if not upvalue then break end
      names[#names + 1], values[#values + 1] = upvalue, content
    end
  elseif type(value) == 'table' and kind ~= 'table' then
    for field in pairs(value) do names[#names + 1] = field end
    table.sort(names)
    for i, field in ipairs(names) do values[i] = field == 'metatable' and meta or value[field] end
  elseif type(value) == 'table' then
    names[2] = 'pairs[]'
    for key, target in next, value do values[#values + 1], values[#values + 2] = key, target end
  end
  return kind, names, values
end

local function write(step)
  collectgarbage('stop')
  local queue, known, types = { judged }, { [judged] = true }, {}
  local file = assert(io.open(folder .. '/' .. step .. '.txt', 'w'))
  file:write('graph\nroot ', name(judged), ' as judged\n')
  for _, object in ipairs(queue) do
    local kind, names, values = parts(object)
    local slots, words, all = {}, { text(kind) }, table.concat(names, ' ')
    if not types[kind] then
      types[#types + 1], types[kind] = string.format('type %s slots %s data class %s\nlabel %s %s\n', kind, all, all, text(kind), kind), true
    end
    for i, value in ipairs(values) do
      local isObject = OBJECT[type(value)]
      slots[i], words[i + 1] = isObject and name(value) or '-', isObject and '0' or dataOf(value)
      if isObject and not known[value] then known[value], queue[#queue + 1] = true, value end
    end
    file:write(string.format('object %s %d/%d ', name(object), 1 + #slots + #words, #slots))
    file:write(table.concat(slots, ' '), ' ', table.concat(words, ' '), '\n')
  end
  file:close()
  assert(io.open(folder .. '/names', 'w')):write(table.concat(types)):close()
  collectgarbage('restart')
end

-- The heap that is judged.
local Node, Judged = { __name = 'Node' }, { __name = 'Judged' }
local function tree(levels, key, nodes)
  local node = setmetatable({ key = key, left = false, right = false, name = 'node ' .. key, weight = key / 3 }, Node)
  nodes[#nodes + 1] = node
  if levels > 1 then node.left, node.right = tree(levels - 1, 2 * key, nodes), tree(levels - 1, 2 * key + 1, nodes) end
  return node
end
local nodes, byName, count = {}, {}, 41
judged = setmetatable({ root = tree(depth, 1, nodes), table = byName, next = function() count = count + 1 return count end }, Judged)
for _, node in ipairs(nodes) do byName[node.name] = node end
judged.self = judged

-- Allocates what dies, collects, and counts how much is gone.
local function collected(collect)
  local weak = setmetatable({}, { __mode = 'k' })
  for i = 1, 100000 do weak[{ i }] = true end
  collect()
  local freed, again = 100000, {}
  for _ in pairs(weak) do freed = freed - 1 end
  for i = 1, 100000 do again[i] = { -i } end
  return freed
end

write('before')
print('before')
for _, mode in ipairs { { 'incremental', 'incremental', 'collect' }, { 'young', 'generational', 'step' }, { 'full', 'generational', 'collect' } } do
  collectgarbage(mode[2])
  local freed = collected(function() collectgarbage(mode[3]) end)
  write(mode[1])
  print(string.format('collection %s %d freed', mode[1], freed))
end

-- Errors in the memory of the process. A table's fields are nodes of 24 bytes: a value, its type, and the key behind it.
local memory = assert(io.open('/proc/self/mem', 'r+b'))
memory:setvbuf('no')
local function get(at, format) memory:seek('set', at) return (string.unpack(format, memory:read(string.packsize(format)))) end
local function put(at, word) memory:seek('set', at) memory:write(string.pack('<i8', word)) memory:flush() end
local function place(object, field)
  local fields, count = get(tonumber(name(object)) + 24, '<i8'), 1 << get(tonumber(name(object)) + 11, '<I1')
  for at = fields, fields + 24 * (count - 1), 24 do
    if get(at + 16, '<i8') == tonumber(name(field)) then return at end
  end
  error('this Lua lays out its tables otherwise')
end
local function plant(step, at, wrong, where)
  local right = get(at, '<i8')
  put(at, wrong)
  write(step)
  put(at, right)
  print('planted ' .. step .. ' ' .. where)
end
local node, other = judged.root.left, judged.root.right
plant('wrong', place(node, 'right'), tonumber(name(other.left)), 'split judged.root.left.right Node')
plant('torn', place(node, 'key'), node.key ~ 0x5500, 'data judged.root.left Node key')
write('again')
print('again')
