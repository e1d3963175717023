import java.util.ArrayDeque;
import java.util.LinkedHashMap;
import java.util.Map;
import java.util.Random;

/**
 * A cache that forgets what was used longest ago, and a queue of requests to it. Most requests hit; what falls out of
 * the cache is garbage, all over the heap. The argument is the number of entries.
 */
public final class CacheAndQueue {
    static final class Page {
        final String title;
        final byte[] content;
        Page previous;

        Page(String title, byte[] content) {
            this.title = title;
            this.content = content;
        }
    }

    static final class Cache extends LinkedHashMap<Integer, Page> {
        final int limit;

        Cache(int limit) {
            super(16, 0.75f, true);
            this.limit = limit;
        }

        @Override
        protected boolean removeEldestEntry(Map.Entry<Integer, Page> eldest) {
            return size() > limit;
        }
    }

    static Cache cache;
    static final ArrayDeque<Integer> queue = new ArrayDeque<>();

    public static void main(String[] words) throws Exception {
        int entries = words.length > 0 ? Integer.parseInt(words[0]) : 1000;
        Random random = new Random(1);
        cache = new Cache(entries);
        Page last = null;
        for (int i = 0; i < 3 * entries; i++) {
            if (i == 2 * entries) {
                System.gc(); // what is garbage in the dump is the cache's, and not the start's
            }
            queue.add(random.nextInt(2 * entries));
            if (queue.size() > entries / 4) {
                last = answer(queue.remove(), random, last);
            }
        }
        System.out.println("ready");
        System.in.read(); // until the heap was dumped
    }

    static Page answer(int number, Random random, Page last) {
        Page page = cache.get(number);
        if (page == null) {
            page = new Page("page " + number, new byte[random.nextInt(64)]);
            random.nextBytes(page.content);
            cache.put(number, page);
        }
        page.previous = random.nextInt(4) == 0 ? null : last;
        return page;
    }
}
