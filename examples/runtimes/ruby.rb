# ruby ruby.rb FOLDER DEPTH: writes the heap below HEAP before and after Ruby's collections, and with errors in it.
#
# A file has lines of objects by name, and a name is the object's address. Slots are an object's class, its variables,
# elements, pairs and members. A value that is no object (a small number, nil, true) has a null slot and a data word.
# The walk takes addresses by Fiddle.dlwrap, and no collection runs while it walks.
require 'fiddle'

FOLDER, DEPTH = ARGV[0], ARGV[1].to_i

# What a value holds, as a program can see it.
module Seen
  VARIABLES, VARIABLE, CLASS = %i[instance_variables instance_variable_get class].map { |name| Kernel.instance_method(name) }

  module_function

  def text(string) = "\"#{string.b.gsub(/[^!-~]|["\\]/n) { |byte| format('\x%02x', byte.ord) }}\""
  def address(value) = Fiddle.dlwrap(value)
  def immediate?(value) = address(value) & 7 != 0 || [0, 8].include?(address(value))

  # The names of the slots, the values in them, and the data words by their names.
  def parts(value)
    return [[], [], { class: text(value.class.name), name: text(value.name || 'no name') }] if value.is_a?(Module)
    variables = VARIABLES.bind_call(value)
    names, values, data = contents(value)
    [['class', *variables.map { |name| name.name.delete('@') }, *names],
     [CLASS.bind_call(value), *variables.map { |name| VARIABLE.bind_call(value, name) }, *values],
     { class: text(CLASS.bind_call(value).name), variables: text(variables.join(',')), **data }]
  end

  def contents(value)
    case value
    when String then [[], [], { bytes: value.bytesize, text: text(value), encoding: text(value.encoding.name) }]
    when Float then [[], [], { bits: [value].pack('D').unpack1('Q') }]
    when Integer, Symbol then [[], [], { value: text(value.to_s) }]
    when Array then [['[]'], value, {}]
    when Hash then [['pairs[]'], value.flat_map { |key, target| [key, target] }, { by_identity: value.compare_by_identity? ? 1 : 0 }]
    when Struct then [value.members, value.to_a, {}]
    when Proc then [(names = value.binding.local_variables), names.map { |name| value.binding.local_variable_get(name) }, {}]
    else [[], [], {}]
    end
  end
end

def line_of(value, types)
  names, values, data = Seen.parts(value)
  types[data[:class]] ||= "type #{data[:class].delete('"')} #{['slots', *names, 'data', *data.keys, *names].join(' ')}"
  slots = values.map { |target| Seen.immediate?(target) ? '-' : Seen.address(target) }
  words = data.values + values.map { |target| Seen.immediate?(target) ? Seen.address(target) & 0xffffffffffffffff : 0 }
  "object #{Seen.address(value)} #{1 + slots.size + words.size}/#{slots.size} #{(slots + words).join(' ')}"
end

def write(name)
  GC.disable
  queue, known, types = [HEAP], { Seen.address(HEAP) => true }, {}
  File.open("#{FOLDER}/#{name}.txt", 'w') do |file|
    file.puts 'graph', "root #{Seen.address(HEAP)} as judged"
    while (value = queue.shift)
      file.puts line_of(value, types)
      found = Seen.parts(value)[1].reject { |target| Seen.immediate?(target) || known[Seen.address(target)] }
      queue.concat(found.uniq { |target| Seen.address(target) }.each { |target| known[Seen.address(target)] = true })
    end
  end
  File.write("#{FOLDER}/names", types.map { |label, line| "#{line}\nlabel #{label} #{label.delete('"')}\n" }.join)
ensure
  GC.enable
end

# The heap that is judged.
class Node
  attr_accessor :key, :left, :right, :name, :weight

  def initialize(key) = (@key, @left, @right, @name, @weight = key, nil, nil, "node #{key}", key / 3.0)
end
Judged = Struct.new(:root, :by_name, :big, :next, :self)

def tree(depth, key, nodes)
  nodes << node = Node.new(key)
  GARBAGE << ['g' * 30, [key]]
  node.left, node.right = tree(depth - 1, 2 * key, nodes), tree(depth - 1, 2 * key + 1, nodes) if depth > 1
  node
end

# A method of its own: a block keeps all variables around it.
def heap
  root, count = tree(DEPTH, 1, nodes = []), 41
  Judged.new(root, nodes.to_h { |node| [node.name, node] }, 3**200, -> { count + 1 }).tap { |all| all.self = all }
end

GARBAGE = []
HEAP = heap
3.times { GC.start }
write('before')
puts 'before'
GARBAGE.clear
{ minor: -> { GC.start(full_mark: false) }, full: -> { GC.start }, compact: -> { GC.compact } }.each do |name, collect|
  collect.call
  write(name)
  puts "collection #{name}"
end

# Errors in the memory of the process. A Node has more than three variables, so they are in a table behind its header.
def word(at) = Fiddle::Pointer.new(at)[0, 8].unpack1('Q')
def put(at, word) = Fiddle::Pointer.new(at)[0, 8] = [word].pack('Q')
def place(node, variable) = word(Seen.address(node) + 24) + 8 * node.instance_variables.index(variable)

def plant(name, at, wrong, found)
  right = word(at)
  put(at, wrong)
  write(name)
  put(at, right)
  puts "planted #{name} #{found}"
end

GC.disable
node, other = HEAP.root.left, HEAP.root.right
abort 'ruby.rb: this Ruby lays out its objects otherwise' unless word(place(node, :@key)) == 2 * node.key + 1
plant('wrong', place(node, :@right), Seen.address(other.left), 'split judged.root.left.right Node')
plant('torn', place(node, :@key), word(place(node, :@key)) ^ 0x5500, 'data judged.root.left Node key')
write('again')
puts 'again'
