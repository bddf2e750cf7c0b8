import java.util.ArrayDeque;
import java.util.ArrayList;
import java.util.Deque;
import java.util.List;
import java.util.concurrent.Callable;
import java.util.concurrent.CountDownLatch;
import java.util.concurrent.ExecutorService;
import java.util.concurrent.Executors;
import java.util.concurrent.Future;
import java.util.concurrent.TimeUnit;
import java.util.concurrent.atomic.AtomicInteger;
import org.apache.curator.framework.CuratorFramework;
import org.apache.curator.framework.CuratorFrameworkFactory;
import org.apache.curator.retry.RetryNTimes;
import org.apache.zookeeper.Cut;
import org.apache.zookeeper.ZooKeeper;

/** What a recipe works with: clients at the server under test and at the leader, in a namespace of the recipe's own. */
final class Bench implements AutoCloseable {
    static final int SESSION = 30_000, CONNECTION = 10_000, SECONDS = 30;

    final String server, leader;
    private final String namespace;
    private final boolean isTracked;
    private final Deque<AutoCloseable> opened = new ArrayDeque<>();

    /** Something that a recipe does. */
    interface Job {
        void run() throws Exception;
    }

    Bench(String server, String leader, String namespace, boolean isTracked) {
        this.server = server;
        this.leader = leader;
        this.namespace = namespace;
        this.isTracked = isTracked;
    }

    CuratorFrameworkFactory.Builder builder(String address) {
        return CuratorFrameworkFactory.builder().connectString(address).namespace(namespace)
                .ensembleTracker(isTracked).sessionTimeoutMs(SESSION).connectionTimeoutMs(CONNECTION)
                .retryPolicy(new RetryNTimes(3, 200));
    }

    CuratorFramework started(CuratorFrameworkFactory.Builder builder) throws Exception {
        CuratorFramework client = ending(builder.build());
        client.start();
        check(client.blockUntilConnected(SECONDS, TimeUnit.SECONDS), "no connection");
        return client;
    }

    /** Returns a client at the server under test. */
    CuratorFramework near() throws Exception {
        return started(builder(server));
    }

    /** Returns a client at the leader. */
    CuratorFramework far() throws Exception {
        return started(builder(leader));
    }

    /** Returns three clients at the server under test, and one at the leader. */
    List<CuratorFramework> four() throws Exception {
        return List.of(near(), near(), near(), far());
    }

    /** Has something closed when the recipe ends: the last one first. */
    synchronized <T extends AutoCloseable> T ending(T it) {
        opened.push(it);
        return it;
    }

    @Override
    public synchronized void close() {
        while (!opened.isEmpty()) {
            try {
                opened.pop().close();
            } catch (Exception why) {
                // The recipe has closed it.
            }
        }
    }

    /** Waits until a client's server has all that was written before, and the client all events of it. */
    static void sync(CuratorFramework client) throws Exception {
        CountDownLatch synced = new CountDownLatch(1);
        client.sync().inBackground((own, event) -> synced.countDown()).forPath("/");
        check(synced.await(SECONDS, TimeUnit.SECONDS), "no sync");
    }

    /** Cuts a client's connection, which it makes again. */
    static void cut(CuratorFramework client) throws Exception {
        Cut.cut(client.getZookeeperClient().getZooKeeper());
    }

    /** Ends a client's session behind its back: another client takes it up, and closes it. */
    void expire(CuratorFramework client) throws Exception {
        ZooKeeper zookeeper = client.getZookeeperClient().getZooKeeper();
        ZooKeeper other = new ZooKeeper(server, SESSION, event -> { }, zookeeper.getSessionId(),
                zookeeper.getSessionPasswd());
        until("the session is taken up", () -> other.getState().isConnected());
        other.close();
    }

    static long session(CuratorFramework client) throws Exception {
        return client.getZookeeperClient().getZooKeeper().getSessionId();
    }

    static void check(boolean holds, String what) {
        if (!holds) {
            throw new AssertionError(what);
        }
    }

    static void equal(Object found, Object wanted) {
        check(wanted.equals(found), found + " in place of " + wanted);
    }

    static void until(String what, Callable<Boolean> condition) throws Exception {
        long ends = System.nanoTime() + TimeUnit.SECONDS.toNanos(SECONDS);
        while (!condition.call()) {
            check(System.nanoTime() < ends, "not within " + SECONDS + " seconds: " + what);
            Thread.sleep(20);
        }
    }

    /** Does jobs at once, and throws what one of them threw. */
    void atOnce(List<Job> jobs) throws Exception {
        ExecutorService threads = Executors.newCachedThreadPool();
        ending(threads::shutdownNow);
        List<Future<?>> found = new ArrayList<>();
        for (Job it : jobs) {
            found.add(threads.submit(() -> {
                it.run();
                return null;
            }));
        }
        for (Future<?> it : found) {
            it.get(2 * SECONDS, TimeUnit.SECONDS);
        }
    }

    /** Counts who is inside, and refuses more than a limit. */
    static final class Room {
        private final AtomicInteger inside = new AtomicInteger(), entered = new AtomicInteger();
        private final int limit;

        Room(int limit) {
            this.limit = limit;
        }

        void visit() throws Exception {
            check(inside.incrementAndGet() <= limit, "more than " + limit + " hold it");
            entered.incrementAndGet();
            Thread.sleep(2);
            inside.decrementAndGet();
        }

        int visits() {
            return entered.get();
        }
    }
}
