import java.lang.reflect.Field;
import sun.misc.Unsafe;

/**
 * Plants an error in the heap of the running JVM after a collection, as a broken collector would leave it.
 *
 * LiveBug N OUT stale|wrong|null|torn, with -XX:-UseCompressedOops: dumps, collects, plants, and dumps again.
 */
public class LiveBug {
    public static void main(String[] words) throws Exception {
        Field field = Unsafe.class.getDeclaredField("theUnsafe");
        field.setAccessible(true);
        Unsafe unsafe = (Unsafe) field.get(null);
        Judge.build(Integer.parseInt(words[0]));
        Judge.Node node = Judge.root.tree.left.right, other = Judge.root.tree.right.left;
        long left = unsafe.objectFieldOffset(Judge.Node.class.getDeclaredField("left"));
        long stamp = unsafe.objectFieldOffset(Judge.Node.class.getDeclaredField("stamp"));
        long before = unsafe.getLong(node, left); // where the left node is before it is moved
        Judge.dump(words[1] + "_before.hprof");
        System.gc();
        switch (words[2]) {
            case "stale":
                unsafe.putLong(node, left, before);
                break;
            case "wrong":
                unsafe.putLong(node, left, unsafe.getLong(other, left));
                break;
            case "null":
                unsafe.putLong(node, left, 0);
                break;
            default:
                unsafe.putInt(node, stamp, 0x12345678);
        }
        Judge.dump(words[1] + "_after.hprof");
        System.out.println("planted in Judge.root.index[" + node.key + "]");
        Runtime.getRuntime().halt(0); // the next collection would fail on it
    }
}
