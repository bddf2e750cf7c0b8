import java.util.concurrent.TimeUnit;
import org.apache.curator.framework.CuratorFramework;
import org.apache.curator.framework.recipes.nodes.PersistentTtlNode;
import org.apache.zookeeper.CreateMode;
import org.apache.zookeeper.data.Stat;

/** Nodes that the leader deletes by itself: TTL nodes, which are off by default, and containers. */
final class Extended {
    /** A PersistentTtlNode stays while it is kept, and goes when it isn't any more. */
    static void ttlNode(Bench bench) throws Exception {
        CuratorFramework near = bench.near();
        PersistentTtlNode node = bench.ending(new PersistentTtlNode(near, "/ttl", 1000, new byte[] {1}));
        node.start();
        Bench.check(node.waitForInitialCreate(Bench.SECONDS, TimeUnit.SECONDS), "it isn't made");
        Thread.sleep(2500);
        Bench.check(near.checkExists().forPath("/ttl") != null, "it is gone");
        node.close();
        Bench.until("it goes", () -> near.checkExists().forPath("/ttl") == null);
    }

    /** The Stat of a TTL node has no owner, and its number goes on in a sequence. */
    static void ttlStat(Bench bench) throws Exception {
        CuratorFramework near = bench.near();
        Stat stat = new Stat();
        String made = near.create().withTtl(60_000).storingStatIn(stat)
                .withMode(CreateMode.PERSISTENT_WITH_TTL).forPath("/for-a-minute");
        Bench.equal(stat.getEphemeralOwner(), 0L);
        Bench.equal(near.checkExists().forPath(made), stat);
        Bench.equal(bench.far().checkExists().forPath(made), stat);
        String next = near.create().withTtl(60_000).withMode(CreateMode.PERSISTENT_SEQUENTIAL_WITH_TTL).forPath("/n-");
        Bench.equal(next, "/n-0000000001");
    }

    /** A container goes when its last child has gone. */
    static void container(Bench bench) throws Exception {
        CuratorFramework near = bench.near();
        near.create().withMode(CreateMode.CONTAINER).forPath("/container");
        near.create().withMode(CreateMode.EPHEMERAL).forPath("/container/child");
        Thread.sleep(1500);
        Bench.check(near.checkExists().forPath("/container") != null, "it is gone");
        near.delete().forPath("/container/child");
        Bench.until("it goes", () -> near.checkExists().forPath("/container") == null);
    }
}
