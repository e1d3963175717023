package jdk.test.whitebox;

/** What HotSpot offers its own tests, with -XX:+WhiteBoxAPI, on the path of its own classes: a pause when it is asked for. */
public class WhiteBox {
    private static native void registerNatives();

    static {
        registerNatives();
    }

    public static final WhiteBox vm = new WhiteBox();

    public native void youngGC();

    public native void fullGC();
}
