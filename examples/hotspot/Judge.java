import com.sun.management.HotSpotDiagnosticMXBean;
import java.io.File;
import java.lang.management.GarbageCollectorMXBean;
import java.lang.management.ManagementFactory;
import java.lang.ref.WeakReference;
import java.util.ArrayDeque;
import java.util.Arrays;
import java.util.HashMap;
import java.util.IdentityHashMap;
import java.util.LinkedHashMap;
import java.util.Random;

/**
 * Builds a heap of about N objects under the static field Judge.root, and dumps it for a judge of the collector.
 *
 * Judge N STEPS OUT full|young|mixed|none: dumps to OUT_before.hprof, lets the collector run, dumps to OUT_after.hprof.
 * Judge N STEPS OUT work: changes the graph in STEPS steps while the collector runs, and dumps to OUT.hprof. What it
 * does is the same in each run, so that two collectors can be compared.
 */
public class Judge {
    static final class Node {
        Node left, right, parent;
        int key;
        long stamp;
        byte flag;
        Object extra;
        short small;
    }

    static final class Page {
        String title;
        byte[] content;
        Page previous;
        int hits;
        double weight;
    }

    static final class Root {
        HashMap<String, Page> cache = new LinkedHashMap<>();
        Node tree;
        Node[] index;
        Object[] mixed;
        ArrayDeque<Page> queue = new ArrayDeque<>();
        Class<?> kind = Page.class;
        WeakReference<Page> weak;
        int[][] grid;
        long[] big;
        IdentityHashMap<Page, Integer> byIdentity = new IdentityHashMap<>();
        String interned = "an interned text".intern();
    }

    static Root root;
    static Object[] garbage;
    static long sink;
    static final Random random = new Random(7);

    static Node tree(int from, int to, Node parent, Node[] index) {
        if (from >= to) return null;
        int middle = (from + to) >>> 1;
        Node node = new Node();
        node.key = middle;
        node.stamp = middle * 0x9E3779B97F4A7C15L;
        node.flag = (byte) middle;
        node.small = (short) (middle * 3);
        node.parent = parent;
        if ((middle & 7) == 0) node.extra = Integer.valueOf(middle);
        if ((middle & 7) == 1) node.extra = "k" + middle;
        index[middle] = node;
        node.left = tree(from, middle, node, index);
        node.right = tree(middle + 1, to, node, index);
        return node;
    }

    static Page page(int number, Page previous) {
        Page page = new Page();
        page.title = "page " + number;
        page.content = new byte[20 + random.nextInt(120)];
        random.nextBytes(page.content);
        page.previous = previous;
        page.hits = number;
        page.weight = number / 7.0;
        return page;
    }

    static void build(int objects) {
        root = new Root();
        garbage = new Object[objects / 2];
        root.index = new Node[objects / 4];
        root.tree = tree(0, root.index.length, null, root.index);
        Page last = null;
        for (int i = 0; i < objects / 8; i++) {
            garbage[i] = new byte[32 + random.nextInt(200)]; // between the others, and dead before the first dump
            last = page(i, (i & 3) == 0 ? null : last);
            root.cache.put(last.title, last);
            if ((i & 15) == 0) root.queue.add(last);
            if ((i & 31) == 0) root.byIdentity.put(last, i);
        }
        root.weak = new WeakReference<>(last);
        root.mixed = new Object[] {
            new int[] {1, 2, 3}, new char[] {'a'}, root.index, root, "x", Integer.class, int.class, new Object(), null
        };
        root.grid = new int[100][];
        for (int i = 0; i < root.grid.length; i++) root.grid[i] = new int[i * 10];
        root.big = new long[200_000];
        for (int i = 0; i < root.big.length; i++) root.big[i] = i * 31L;
        garbage = null;
    }

    /** Allocates what dies young. */
    static void churn(int steps, int kept) {
        Object[] ring = new Object[kept];
        for (int i = 0; i < steps; i++) {
            byte[] bytes = new byte[64 + (i & 255)];
            ring[i % kept] = bytes;
            sink += bytes.length;
        }
    }

    /** Changes the graph: swaps, replaces, shares and drops objects. */
    static void work(int steps) {
        int nodes = root.index.length;
        for (int i = 0; i < steps; i++) {
            int a = random.nextInt(nodes), b = random.nextInt(nodes);
            Node node = root.index[a];
            switch (random.nextInt(6)) {
                case 0:
                    Node left = node.left;
                    node.left = node.right;
                    node.right = left;
                    break;
                case 1:
                    replace(a, i);
                    break;
                case 2:
                    node.extra = root.index[b];
                    break;
                case 3:
                    Page page = page(i, root.queue.peekLast());
                    root.queue.add(page);
                    root.queue.poll();
                    root.cache.put("page " + (a % (2 * nodes)), page);
                    break;
                case 4:
                    node.extra = new long[] {i, a, b};
                    break;
                default:
                    int[] row = root.grid[b % 100];
                    root.grid[a % 100] = row.length < 2000 ? Arrays.copyOf(row, row.length + 1) : new int[3];
            }
        }
    }

    /** Puts a new node into the place of an old one. */
    static void replace(int at, int stamp) {
        Node node = new Node(), old = root.index[at];
        node.left = old.left;
        node.right = old.right;
        node.parent = old.parent;
        node.key = old.key;
        node.stamp = stamp;
        node.extra = old.extra;
        if (node.left != null && node.left.parent == old) node.left.parent = node;
        if (node.right != null && node.right.parent == old) node.right.parent = node;
        if (old.parent != null && old.parent.left == old) old.parent.left = node;
        if (old.parent != null && old.parent.right == old) old.parent.right = node;
        if (root.tree == old) root.tree = node;
        root.index[at] = node;
    }

    static void dump(String name) throws Exception {
        new File(name).delete();
        ManagementFactory.getPlatformMXBean(HotSpotDiagnosticMXBean.class).dumpHeap(name, false);
    }

    /** Says how often each part of the collector has run. */
    static void say(String when) {
        StringBuilder text = new StringBuilder(when);
        for (GarbageCollectorMXBean bean : ManagementFactory.getGarbageCollectorMXBeans()) {
            text.append(" | ").append(bean.getName()).append(' ').append(bean.getCollectionCount());
        }
        System.out.println(text);
    }

    static void collect(String how, int steps) {
        switch (how) {
            case "full":
                System.gc();
                break;
            case "young":
                churn(steps, 1000);
                break;
            case "mixed":
                for (int i = 0; i < 6; i++) {
                    System.gc();
                    churn(steps / 6, 1000);
                }
                break;
            case "none":
                break;
            default:
                throw new IllegalArgumentException(how);
        }
    }

    public static void main(String[] words) throws Exception {
        int objects = Integer.parseInt(words[0]), steps = Integer.parseInt(words[1]);
        String out = words[2], how = words[3];
        build(objects);
        if (how.equals("work")) {
            for (int i = 0; i < 20; i++) {
                work(steps / 20);
                churn(steps / 2, 100);
            }
            say("after");
            dump(out + ".hprof");
            return;
        }
        churn(1000, 1); // so that what is loaded when it is first used is there
        say("before");
        int hash = System.identityHashCode(root.tree);
        dump(out + "_before.hprof");
        collect(how, steps);
        say("after");
        dump(out + "_after.hprof");
        if (hash != System.identityHashCode(root.tree)) System.out.println("another identity hash");
    }
}
