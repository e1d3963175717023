// mono walk.exe FOLDER DEPTH: writes the heap below `judged` before and after collections of Mono's SGen, and with
// errors in it.
//
// A file has lines of objects by name, and a name is the object's address. Slots are the fields and elements that are
// references; other fields are data words. A large nursery (nursery-size=256m) keeps collections out of a walk.
using System;
using System.Collections.Generic;
using System.Globalization;
using System.IO;
using System.Linq;
using System.Reflection;
using System.Runtime.CompilerServices;

sealed class ByIdentity : IEqualityComparer<object> {
    bool IEqualityComparer<object>.Equals(object one, object other) { return ReferenceEquals(one, other); }
    public int GetHashCode(object value) { return RuntimeHelpers.GetHashCode(value); }
}

sealed class Found {
    public object Value;
    public readonly List<object> Slots = new List<object>();
    public readonly List<string> Data = new List<string>(), SlotNames = new List<string>(), DataNames = new List<string>();
    public void Add(string name, string word) { DataNames.Add(name); Data.Add(word); }
}

static unsafe class Heap {
    const BindingFlags Own = BindingFlags.Instance | BindingFlags.Public | BindingFlags.NonPublic | BindingFlags.DeclaredOnly;
    public static ulong Address(object value) {
        TypedReference reference = __makeref(value);
        return (ulong)(**(IntPtr**)((byte*)&reference + 8)).ToInt64();
    }

    static string Text(object value) {
        var letters = Convert.ToString(value, CultureInfo.InvariantCulture).Select(letter =>
            letter > ' ' && letter <= '~' && letter != '\\' ? letter.ToString() : "\\u" + ((int)letter).ToString("x4"));
        return '"' + string.Concat(letters) + '"';
    }

    static IEnumerable<FieldInfo> FieldsOf(Type type) {
        return type == null ? new FieldInfo[0] : FieldsOf(type.BaseType).Concat(type.GetFields(Own));
    }

    static void Add(Found found, string name, object value, Type type) {
        if (!type.IsValueType) { found.Slots.Add(value); found.SlotNames.Add(name); }
        else if (!type.IsPrimitive && !type.IsEnum) foreach (var field in FieldsOf(type))
            Add(found, name == "[]" ? name : name + "." + field.Name, field.GetValue(value), field.FieldType);
        else if (value is double) found.Add(name, BitConverter.DoubleToInt64Bits((double)value).ToString());
        else found.Add(name, value is int || value is long ? value.ToString() : Text(value));
    }

    static Found PartsOf(object value) {
        var found = new Found { Value = value };
        var type = value.GetType();
        found.Add("class", Text(type));
        if (value is string) found.Add("text", Text(value));
        else if (value is MemberInfo || value is Delegate) return found;
        else if (type.IsArray) foreach (object element in (Array)value) Add(found, "[]", element, type.GetElementType());
        else foreach (var field in FieldsOf(type)) Add(found, field.Name, field.GetValue(value), field.FieldType);
        return found;
    }

    public static void Write(string folder, string step, object root) {
        var numbers = new Dictionary<object, int>(new ByIdentity()) { { root, 0 } };
        var all = new List<Found> { PartsOf(root) };
        for (int i = 0; i < all.Count; i++) foreach (object target in all[i].Slots) {
            if (target == null || numbers.ContainsKey(target)) continue;
            numbers[target] = all.Count;
            all.Add(PartsOf(target));
        }
        var names = all.Select(found => Address(found.Value)).ToArray();
        using (var file = new StreamWriter(folder + "/" + step + ".txt")) {
            file.WriteLine("graph\nroot " + names[0] + " as judged");
            foreach (var found in all)
                file.WriteLine("object {0} {1}/{2} {3}", names[numbers[found.Value]], 1 + found.Slots.Count + found.Data.Count, found.Slots.Count,
                    string.Join(" ", found.Slots.Select(target => target == null ? "-" : names[numbers[target]].ToString()).Concat(found.Data)));
        }
        File.WriteAllLines(folder + "/names", all.GroupBy(found => found.Data[0]).Select(group => group.First()).Select(found =>
            string.Format("label {0} {1}\ntype {1} {2}", found.Data[0], found.Data[0].Trim('"'), string.Join(" ", new[] { "slots" }.Concat(
                found.SlotNames.Distinct()).Concat(new[] { "data" }).Concat(found.DataNames.Distinct())))));
    }
}

sealed class Node { public int key; public Node left, right; public string name; public double weight; }
sealed class Judged { public Node root; public Node[] nodes; public Dictionary<string, Node> byName; public object boxed; }
static unsafe class Program {
    static string folder;
    static Judged judged;
    static Node Tree(int depth, int key, List<Node> nodes) {
        var node = new Node { key = key, name = "node " + key, weight = key / 3.0 };
        nodes.Add(node);
        if (depth > 1) { node.left = Tree(depth - 1, 2 * key, nodes); node.right = Tree(depth - 1, 2 * key + 1, nodes); }
        return node;
    }

    static void Write(string line) { // as in "collection minor"
        Heap.Write(folder, (line + " " + line).Split(' ')[1], judged);
        Console.WriteLine(line);
    }
    static void Plant(string line, ulong* at, ulong wrong) { ulong right = *at; *at = wrong; Write(line); *at = right; }

    static void Main(string[] words) {
        folder = words[0];
        var nodes = new List<Node>();
        Node root = Tree(int.Parse(words[1]), 1, nodes), node = root.left, other = root.right;
        judged = new Judged { root = root, nodes = nodes.ToArray(), byName = nodes.ToDictionary(each => each.name), boxed = 42 };
        Write("before");
        foreach (var step in new[] { "minor", "again_minor", "full" }) {
            for (int i = 0; i < 300000; i++) i.ToString();
            GC.Collect(step == "full" ? 1 : 0);
            Write("collection " + step);
        }
        // Errors in the memory of the process: a word of a node that is the address of its right one, and its number.
        ulong* at = (ulong*)Heap.Address(node);
        int right = Enumerable.Range(2, 4).First(i => at[i] == Heap.Address(node.right));
        Plant("planted wrong split judged.root.left.right Node", at + right, Heap.Address(other.left));
        int key = Enumerable.Range(2, 4).First(i => (uint)at[i] == (uint)node.key);
        Plant("planted torn data judged.root.left Node key", at + key, at[key] ^ 0x5500);
        Write("again");
    }
}
