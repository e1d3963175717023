import com.sun.management.HotSpotDiagnosticMXBean;
import java.io.File;
import java.lang.management.ManagementFactory;
import jdk.test.whitebox.WhiteBox;

/**
 * Dumps its heap, has G1 make one pause, and dumps its heap again: PausePoint N STEPS OUT young|mixed|humongous.
 *
 * The pause is a young one; with `mixed` the first after a concurrent marking that takes old regions, too; with
 * `humongous` a young one after two large arrays have died. Nothing runs between the first dump and the pause.
 */
public class PausePoint {
    public static void main(String[] words) throws Exception {
        int objects = Integer.parseInt(words[0]), steps = Integer.parseInt(words[1]);
        String before = words[2] + "_before.hprof", after = words[2] + "_after.hprof", how = words[3];
        HotSpotDiagnosticMXBean bean = ManagementFactory.getPlatformMXBean(HotSpotDiagnosticMXBean.class);
        Judge.dump(before); // so that what a dump needs is loaded
        new File(before).delete();
        Judge.build(objects);
        WhiteBox.vm.fullGC();
        Judge.work(steps);
        Judge.churn(20_000, 2_000);
        if (how.equals("mixed")) letOldObjectsDie();
        if (how.equals("humongous")) letLargeArraysDie();
        bean.dumpHeap(before, false);
        WhiteBox.vm.youngGC();
        Judge.dump(after);
    }

    /** Needs -XX:+ExplicitGCInvokesConcurrent: System.gc() is a whole concurrent cycle then. */
    static void letOldObjectsDie() {
        for (int i = 0; i < Judge.root.index.length; i += 2) Judge.root.index[i].extra = null;
        Judge.root.cache.clear();
        // A marking takes what it finds in survivor regions as live, dead or not. So nothing is left in them.
        for (int i = 0; i < 16; i++) WhiteBox.vm.youngGC();
        System.gc();
        WhiteBox.vm.youngGC(); // the pause that prepares the mixed ones
        Judge.churn(20_000, 2_000); // nothing old dies between the marking and the pause
    }

    static void letLargeArraysDie() {
        Judge.root.big = null;
        Judge.root.mixed[8] = new Object[300_000];
        Judge.root.mixed[8] = null;
    }
}
