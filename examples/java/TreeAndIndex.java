import java.util.HashMap;
import java.util.Random;

/**
 * A binary tree in order of its keys, each node naming its parent, and an index from names to nodes. Half of the
 * nodes are taken out again; the index is one great array. The argument is the number of nodes.
 */
public final class TreeAndIndex {
    static final class Node {
        final long key;
        final String name;
        Node parent;
        Node left;
        Node right;

        Node(long key, Node parent) {
            this.key = key;
            this.name = "node " + key;
            this.parent = parent;
        }
    }

    static Node top;
    static final HashMap<String, Node> index = new HashMap<>();

    public static void main(String[] words) throws Exception {
        int nodes = words.length > 0 ? Integer.parseInt(words[0]) : 1000;
        Random random = new Random(1);
        for (int i = 0; i < nodes; i++) {
            if (i == nodes / 2) {
                System.gc(); // what is garbage in the dump is the tree's, and not the start's
            }
            Node node = insert(random.nextInt(4 * nodes));
            index.put(node.name, node);
            if (i % 2 == 1) {
                forget(node);
            }
        }
        System.out.println("ready");
        System.in.read(); // until the heap was dumped
    }

    static Node insert(long key) {
        Node parent = null;
        Node at = top;
        while (at != null && at.key != key) {
            parent = at;
            at = key < at.key ? at.left : at.right;
        }
        if (at != null) {
            return at;
        }
        Node node = new Node(key, parent);
        if (parent == null) {
            top = node;
        } else if (key < parent.key) {
            parent.left = node;
        } else {
            parent.right = node;
        }
        return node;
    }

    /** Takes a leaf out of the tree, and any node out of the index. */
    static void forget(Node node) {
        index.remove(node.name);
        Node parent = node.parent;
        if (node.left == null && node.right == null && parent != null) {
            if (parent.left == node) {
                parent.left = null;
            } else {
                parent.right = null;
            }
        }
    }
}
