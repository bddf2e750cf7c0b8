import java.util.Arrays;
import java.util.List;
import java.util.Map;
import java.util.TreeMap;
import java.util.concurrent.CopyOnWriteArrayList;
import java.util.concurrent.CountDownLatch;
import java.util.concurrent.TimeUnit;
import java.util.concurrent.atomic.AtomicInteger;
import org.apache.curator.framework.CuratorFramework;
import org.apache.curator.framework.recipes.cache.ChildData;
import org.apache.curator.framework.recipes.cache.CuratorCache;
import org.apache.curator.framework.recipes.cache.CuratorCacheListener;
import org.apache.curator.framework.recipes.cache.NodeCache;
import org.apache.curator.framework.recipes.cache.PathChildrenCache;
import org.apache.curator.framework.recipes.cache.PathChildrenCacheEvent;
import org.apache.curator.framework.recipes.cache.TreeCache;
import org.apache.curator.framework.recipes.cache.TreeCacheEvent;

/** Caches at the server under test, of nodes that a client at the leader changes. */
final class Caches {
    private static final int NODES = 40;

    private static byte[] bytes(String text) {
        return text.getBytes();
    }

    private static boolean has(ChildData found, String text) {
        return found != null && Arrays.equals(found.getData(), bytes(text));
    }

    /** A NodeCache has the node's data after it is made, set, deleted and made again. */
    static void nodeCache(Bench bench) throws Exception {
        CuratorFramework far = bench.far();
        NodeCache cache = bench.ending(new NodeCache(bench.near(), "/node"));
        AtomicInteger told = new AtomicInteger();
        cache.getListenable().addListener(told::incrementAndGet);
        cache.start(true);
        Bench.check(cache.getCurrentData() == null, "a node that isn't there");
        for (int turn = 0; turn < 3; turn++) {
            far.create().forPath("/node", bytes("made"));
            Bench.until("it is made", () -> has(cache.getCurrentData(), "made"));
            far.setData().forPath("/node", bytes("set"));
            Bench.until("it is set", () -> has(cache.getCurrentData(), "set"));
            far.delete().forPath("/node");
            Bench.until("it is deleted", () -> cache.getCurrentData() == null);
        }
        Bench.check(told.get() >= 9, "told " + told + " times");
    }

    /** A PathChildrenCache has the children and their data, and tells of each that comes, changes and goes. */
    static void pathChildrenCache(Bench bench) throws Exception {
        CuratorFramework far = bench.far();
        far.create().creatingParentsIfNeeded().forPath("/path/first", bytes("0"));
        CuratorFramework near = bench.near();
        Bench.sync(near);
        List<PathChildrenCacheEvent.Type> told = new CopyOnWriteArrayList<>();
        PathChildrenCache cache = bench.ending(new PathChildrenCache(near, "/path", true));
        cache.getListenable().addListener((client, event) -> told.add(event.getType()));
        cache.start(PathChildrenCache.StartMode.POST_INITIALIZED_EVENT);
        Bench.until("it is filled", () -> told.contains(PathChildrenCacheEvent.Type.INITIALIZED));
        for (int number = 0; number < NODES; number++) {
            far.create().forPath("/path/" + number, bytes("made"));
        }
        Bench.until("all have come", () -> cache.getCurrentData().size() == NODES + 1);
        far.setData().forPath("/path/7", bytes("set"));
        Bench.until("one is set", () -> has(cache.getCurrentData("/path/7"), "set"));
        for (int number = 0; number < NODES; number++) {
            far.delete().forPath("/path/" + number);
        }
        Bench.until("all but one are gone", () -> cache.getCurrentData().size() == 1);
        Bench.until("it tells of each", () ->
                told.stream().filter(PathChildrenCacheEvent.Type.CHILD_ADDED::equals).count() == NODES + 1
                && told.stream().filter(PathChildrenCacheEvent.Type.CHILD_REMOVED::equals).count() == NODES
                && told.contains(PathChildrenCacheEvent.Type.CHILD_UPDATED));
    }

    /** A PathChildrenCache has what changed while its connection was cut. */
    static void pathChildrenCacheAfterCut(Bench bench) throws Exception {
        CuratorFramework far = bench.far(), near = bench.near();
        PathChildrenCache cache = bench.ending(new PathChildrenCache(near, "/cut", true));
        cache.start(PathChildrenCache.StartMode.BUILD_INITIAL_CACHE);
        far.create().orSetData().creatingParentsIfNeeded().forPath("/cut/a", bytes("before"));
        Bench.until("it has one", () -> has(cache.getCurrentData("/cut/a"), "before"));
        Bench.cut(near);
        far.setData().forPath("/cut/a", bytes("after"));
        far.create().forPath("/cut/b", bytes("new"));
        Bench.until("it has the new data", () -> has(cache.getCurrentData("/cut/a"), "after"));
        Bench.until("it has the new node", () -> has(cache.getCurrentData("/cut/b"), "new"));
    }

    private static Map<String, String> grown(CuratorFramework far, String root) throws Exception {
        Map<String, String> wanted = new TreeMap<>();
        for (String path : List.of("/a", "/a/b", "/a/b/c", "/d", "/d/e")) {
            far.create().creatingParentsIfNeeded().forPath(root + path, bytes("made " + path));
            wanted.put(root + path, "made " + path);
        }
        far.setData().forPath(root + "/a/b", bytes("set"));
        wanted.put(root + "/a/b", "set");
        return wanted;
    }

    /** A TreeCache has the tree below its node, through changes at any depth, and a cut. */
    static void treeCache(Bench bench) throws Exception {
        CuratorFramework far = bench.far(), near = bench.near();
        far.create().forPath("/tree", bytes("root"));
        Bench.sync(near);
        CountDownLatch filled = new CountDownLatch(1);
        TreeCache cache = bench.ending(TreeCache.newBuilder(near, "/tree").build());
        cache.getListenable().addListener((client, event) -> {
            if (event.getType() == TreeCacheEvent.Type.INITIALIZED) {
                filled.countDown();
            }
        });
        cache.start();
        Bench.check(filled.await(Bench.SECONDS, TimeUnit.SECONDS), "it isn't filled");
        Map<String, String> wanted = grown(far, "/tree");
        for (Map.Entry<String, String> it : wanted.entrySet()) {
            Bench.until(it.toString(), () -> has(cache.getCurrentData(it.getKey()), it.getValue()));
        }
        far.delete().deletingChildrenIfNeeded().forPath("/tree/d");
        Bench.until("a branch is gone", () -> cache.getCurrentData("/tree/d") == null);
        Bench.cut(near);
        far.setData().forPath("/tree/a/b/c", bytes("while it was cut"));
        Bench.until("it is told", () -> has(cache.getCurrentData("/tree/a/b/c"), "while it was cut"));
    }

    /** A CuratorCache, which has a recursive watch, has the tree below its node, and tells of each change once. */
    static void curatorCache(Bench bench) throws Exception {
        CuratorFramework far = bench.far(), near = bench.near();
        far.create().forPath("/cache", bytes("root"));
        Bench.sync(near);
        CuratorCache cache = bench.ending(CuratorCache.build(near, "/cache"));
        List<String> told = new CopyOnWriteArrayList<>();
        CountDownLatch filled = new CountDownLatch(1);
        cache.listenable().addListener(CuratorCacheListener.builder()
                .forInitialized(filled::countDown)
                .forCreates(it -> told.add("created " + it.getPath()))
                .forDeletes(it -> told.add("deleted " + it.getPath())).build());
        cache.start();
        Bench.check(filled.await(Bench.SECONDS, TimeUnit.SECONDS), "it isn't filled");
        Map<String, String> wanted = grown(far, "/cache");
        for (Map.Entry<String, String> it : wanted.entrySet()) {
            Bench.until(it.toString(), () -> has(cache.get(it.getKey()).orElse(null), it.getValue()));
        }
        // A cache tells nothing of a node that goes before it has it.
        far.delete().deletingChildrenIfNeeded().forPath("/cache/d");
        Bench.until("a branch is gone", () -> cache.stream().noneMatch(it -> it.getPath().startsWith("/cache/d")));
        Bench.until("it tells of each", () -> told.containsAll(List.of("created /cache/a/b/c", "deleted /cache/d")));
        Bench.equal(told.stream().filter("created /cache/a"::equals).count(), 1L);
    }

    /** A CuratorCache has what changed while its connection was cut: its watch is set again. */
    static void curatorCacheAfterCut(Bench bench) throws Exception {
        CuratorFramework far = bench.far(), near = bench.near();
        far.create().forPath("/cut", bytes("root"));
        Bench.sync(near);
        CuratorCache cache = bench.ending(CuratorCache.build(near, "/cut"));
        cache.start();
        Bench.until("it has the root", () -> has(cache.get("/cut").orElse(null), "root"));
        for (int turn = 0; turn < 3; turn++) {
            String path = "/cut/" + turn, text = "turn " + turn;
            Bench.cut(near);
            far.create().forPath(path, bytes(text));
            Bench.until("it has the new node", () -> has(cache.get(path).orElse(null), text));
            near.setData().forPath(path, bytes("own"));
            Bench.until("it has its own data", () -> has(cache.get(path).orElse(null), "own"));
        }
    }

    /** A CuratorCache of a single node has that node alone, and its bridge is a CuratorCache here. */
    static void singleNodeCache(Bench bench) throws Exception {
        CuratorFramework far = bench.far(), near = bench.near();
        CuratorCache single = bench.ending(
                CuratorCache.build(near, "/single", CuratorCache.Options.SINGLE_NODE_CACHE));
        single.start();
        far.create().forPath("/single", bytes("made"));
        far.create().forPath("/single/below", bytes("below"));
        Bench.until("it has the node", () -> has(single.get("/single").orElse(null), "made"));
        far.setData().forPath("/single", bytes("set"));
        Bench.until("it has the data", () -> has(single.get("/single").orElse(null), "set"));
        Bench.check(!single.get("/single/below").isPresent(), "it has a child");
        Bench.check(CuratorCache.bridgeBuilder(near, "/single").build().isCuratorCache(), "an older server");
    }
}
