import java.util.Arrays;
import java.util.Collection;
import java.util.List;
import java.util.concurrent.CopyOnWriteArrayList;
import java.util.concurrent.CountDownLatch;
import java.util.concurrent.TimeUnit;
import java.util.stream.Collectors;
import org.apache.curator.framework.CuratorFramework;
import org.apache.curator.framework.api.transaction.CuratorTransactionResult;
import org.apache.curator.framework.api.transaction.OperationType;
import org.apache.curator.framework.recipes.nodes.PersistentNode;
import org.apache.zookeeper.CreateMode;
import org.apache.zookeeper.KeeperException;
import org.apache.zookeeper.ZooDefs;
import org.apache.zookeeper.data.ACL;
import org.apache.zookeeper.data.Stat;

/** Nodes that are kept, creates of all kinds, transactions, and what the framework does besides. */
final class Nodes {
    /** A PersistentNode is made again when it is deleted, and its data when it is set; it goes when it is closed. */
    static void persistentNode(Bench bench) throws Exception {
        CuratorFramework near = bench.near(), far = bench.far();
        PersistentNode node =
                bench.ending(new PersistentNode(near, CreateMode.EPHEMERAL, false, "/persistent", new byte[] {1}));
        node.start();
        Bench.check(node.waitForInitialCreate(Bench.SECONDS, TimeUnit.SECONDS), "it isn't made");
        Stat first = far.checkExists().forPath("/persistent");
        Bench.equal(first.getEphemeralOwner(), Bench.session(near));
        far.delete().forPath("/persistent");
        Bench.until("it is made again", () -> {
            Stat now = far.checkExists().forPath("/persistent");
            return now != null && now.getCzxid() > first.getCzxid();
        });
        node.setData(new byte[] {2});
        Bench.until("its data is set", () -> far.getData().forPath("/persistent")[0] == 2);
        node.close();
        Bench.until("it goes", () -> far.checkExists().forPath("/persistent") == null);
    }

    /** A PersistentNode is kept through a cut, and made again in a new session when its own is ended. */
    static void persistentNodeAfterExpiry(Bench bench) throws Exception {
        CuratorFramework near = bench.near(), far = bench.far();
        PersistentNode node =
                bench.ending(new PersistentNode(near, CreateMode.EPHEMERAL, true, "/expired", new byte[] {1}));
        node.start();
        Bench.check(node.waitForInitialCreate(Bench.SECONDS, TimeUnit.SECONDS), "it isn't made");
        long session = Bench.session(near);
        Bench.cut(near);
        Bench.until("it is set after a cut", () -> {
            near.setData().forPath(node.getActualPath(), new byte[] {2});
            return true;
        });
        Bench.equal(Bench.session(near), session);
        bench.expire(near);
        Bench.until("another session has it", () -> {
            Stat now = far.checkExists().forPath(node.getActualPath());
            return now != null && now.getEphemeralOwner() != session;
        });
    }

    /** Without the leader's consent a TTL node is refused, and the connection goes on. */
    static void ttlRefused(Bench bench) throws Exception {
        CuratorFramework near = bench.near();
        near.create().forPath("/before");
        try {
            near.create().withTtl(1000).withMode(CreateMode.PERSISTENT_WITH_TTL).forPath("/refused");
            Bench.check(false, "it is made");
        } catch (KeeperException.UnimplementedException why) {
            near.create().forPath("/afterwards");
        }
    }

    /** Creates with a Stat, in a sequence, with parents, as containers, protected, and of what is there. */
    static void creates(Bench bench) throws Exception {
        CuratorFramework near = bench.near(), far = bench.far();
        Stat stat = new Stat();
        near.create().storingStatIn(stat).forPath("/stat", new byte[3]);
        Bench.equal(far.checkExists().forPath("/stat"), stat);
        Bench.equal(near.checkExists().forPath("/stat"), stat);
        near.create().creatingParentContainersIfNeeded().forPath("/in/containers/node");
        Bench.equal(near.checkExists().forPath("/in/containers").getEphemeralOwner(), 0L);
        near.create().withMode(CreateMode.CONTAINER).forPath("/container");
        String first = near.create().withMode(CreateMode.PERSISTENT_SEQUENTIAL).forPath("/container/n-");
        String second = far.create().withMode(CreateMode.EPHEMERAL_SEQUENTIAL).forPath("/container/n-");
        Bench.equal(first + " " + second, "/container/n-0000000000 /container/n-0000000001");
        String safe = near.create().withProtection().withMode(CreateMode.EPHEMERAL_SEQUENTIAL).forPath("/safe-");
        Bench.check(safe.startsWith("/_c_") && safe.endsWith("-safe-0000000003"), safe);
        try {
            near.create().forPath("/stat");
            Bench.check(false, "it is made twice");
        } catch (KeeperException.NodeExistsException why) {
            near.create().orSetData().forPath("/stat", new byte[] {4});
        }
        Bench.equal(near.getData().storingStatIn(stat).forPath("/stat")[0], (byte) 4);
        Bench.equal(stat.getVersion(), 1);
        near.create().idempotent().forPath("/twice", new byte[] {4});
        near.create().idempotent().forPath("/twice", new byte[] {4});
    }

    /** Nodes are deleted with their children, by version, quietly, guaranteed, and in the background. */
    static void deletes(Bench bench) throws Exception {
        CuratorFramework near = bench.near();
        near.create().creatingParentsIfNeeded().forPath("/all/of/it");
        near.delete().deletingChildrenIfNeeded().forPath("/all");
        near.create().forPath("/versioned");
        try {
            near.delete().withVersion(3).forPath("/versioned");
            Bench.check(false, "it is deleted");
        } catch (KeeperException.BadVersionException why) {
            near.delete().guaranteed().withVersion(0).forPath("/versioned");
        }
        near.delete().quietly().forPath("/versioned");
        near.create().forPath("/background");
        CountDownLatch told = new CountDownLatch(1);
        near.delete().inBackground((client, event) -> {
            if (event.getResultCode() == 0) {
                told.countDown();
            }
        }).forPath("/background");
        Bench.check(told.await(Bench.SECONDS, TimeUnit.SECONDS), "it isn't told");
        Bench.equal(near.getChildren().forPath("/"), List.of());
    }

    /** The parts of a transaction are done together, and each has its result. */
    static void transaction(Bench bench) throws Exception {
        CuratorFramework near = bench.near();
        near.create().forPath("/here", new byte[1]);
        List<CuratorTransactionResult> results = near.transaction().forOperations(
                near.transactionOp().create().forPath("/made", new byte[] {1}),
                near.transactionOp().setData().forPath("/made", new byte[] {2}),
                near.transactionOp().create().withMode(CreateMode.EPHEMERAL_SEQUENTIAL).forPath("/own-"),
                near.transactionOp().check().withVersion(0).forPath("/here"),
                near.transactionOp().setData().withVersion(0).forPath("/here", new byte[] {3}),
                near.transactionOp().delete().withVersion(1).forPath("/here"));
        Bench.equal(results.stream().map(CuratorTransactionResult::getType).collect(Collectors.toList()),
                List.of(OperationType.CREATE, OperationType.SET_DATA, OperationType.CREATE, OperationType.CHECK,
                        OperationType.SET_DATA, OperationType.DELETE));
        Bench.check(results.stream().allMatch(it -> it.getError() == 0), "a part has an error");
        Bench.equal(results.get(0).getResultPath(), "/made");
        Bench.equal(results.get(1).getResultStat().getVersion(), 1);
        Bench.equal(results.get(4).getResultStat().getVersion(), 1);
        Bench.equal(near.getData().forPath("/made")[0], (byte) 2);
        Bench.check(near.checkExists().forPath("/here") == null, "it is there");
        Bench.equal(near.checkExists().forPath(results.get(2).getResultPath()).getEphemeralOwner(),
                Bench.session(near));
    }

    /** Of a transaction of which one part fails nothing is done, and the parts say which one it was. */
    static void transactionFails(Bench bench) throws Exception {
        CuratorFramework near = bench.near();
        near.create().forPath("/there");
        try {
            near.transaction().forOperations(
                    near.transactionOp().create().forPath("/new"),
                    near.transactionOp().check().withVersion(7).forPath("/there"),
                    near.transactionOp().delete().forPath("/there"));
            Bench.check(false, "it is done");
        } catch (KeeperException.BadVersionException why) {
            Bench.equal(why.getResults().stream().map(it -> ((org.apache.zookeeper.OpResult.ErrorResult) it).getErr())
                    .collect(Collectors.toList()), List.of(0, -103, -2));
        }
        Bench.equal(near.getChildren().forPath("/"), List.of("there"));
        List<Integer> errors = new CopyOnWriteArrayList<>();
        near.transaction().inBackground((client, event) -> errors.add(event.getResultCode())).forOperations(
                near.transactionOp().delete().forPath("/missing"));
        Bench.until("it is told", () -> errors.equals(List.of(KeeperException.Code.NONODE.intValue())));
    }

    /** What only its creator may do another client may not, at either server; lists are read and set. */
    static void lists(Bench bench) throws Exception {
        CuratorFramework owner = bench.started(bench.builder(bench.server).authorization("digest", "a:b".getBytes()));
        CuratorFramework other = bench.near();
        owner.create().withACL(ZooDefs.Ids.CREATOR_ALL_ACL).forPath("/owned", new byte[] {5});
        Bench.equal(owner.getData().forPath("/owned")[0], (byte) 5);
        try {
            other.getData().forPath("/owned");
            Bench.check(false, "another client reads it");
        } catch (KeeperException.NoAuthException why) {
            owner.setACL().withACL(ZooDefs.Ids.OPEN_ACL_UNSAFE).forPath("/owned");
        }
        Bench.equal(other.getData().forPath("/owned")[0], (byte) 5);
        List<ACL> found = other.getACL().forPath("/owned");
        Bench.equal(found, ZooDefs.Ids.OPEN_ACL_UNSAFE);
        Bench.cut(owner);
        owner.create().withACL(ZooDefs.Ids.CREATOR_ALL_ACL).forPath("/after-a-cut");
        Bench.equal(owner.checkExists().forPath("/after-a-cut").getAversion(), 0);
    }

    /** A client's session and its ephemerals are kept through ten cuts, and it writes after each. */
    static void cuts(Bench bench) throws Exception {
        CuratorFramework near = bench.near(), far = bench.far();
        long session = Bench.session(near);
        for (int turn = 0; turn < 10; turn++) {
            String path = "/of-turn-" + turn;
            near.create().withMode(CreateMode.EPHEMERAL).forPath(path);
            Bench.cut(near);
            Bench.until("it is set", () -> near.setData().forPath(path, new byte[] {7}) != null);
            Bench.equal(Bench.session(near), session);
        }
        Bench.equal(far.getChildren().forPath("/").size(), 10);
        near.close();
        Bench.until("they go", () -> far.getChildren().forPath("/").isEmpty());
    }

    /** A client's session goes to the leader and back 20 times, with an ephemeral each time. */
    static void hops(Bench bench) throws Exception {
        CuratorFramework near = bench.near();
        long session = Bench.session(near);
        for (int turn = 0; turn < 20; turn++) {
            near.getZookeeperClient().getZooKeeper().updateServerList(turn % 2 == 0 ? bench.leader : bench.server);
            near.create().orSetData().withMode(CreateMode.EPHEMERAL).forPath("/of-hop-" + turn);
            Bench.equal(Bench.session(near), session);
        }
        Bench.equal(bench.far().getChildren().forPath("/").size(), 20);
    }

    /** The ensemble's configuration has the addresses of the server under test and of the leader. */
    static void configuration(Bench bench) throws Exception {
        CuratorFramework near = bench.near();
        String found = new String(near.getConfig().forEnsemble());
        for (String it : List.of(bench.server, bench.leader)) {
            Bench.check(found.contains(";" + it), it + " isn't in " + found);
        }
        Collection<byte[]> read = Arrays.asList(near.getConfig().forEnsemble(), bench.far().getConfig().forEnsemble());
        Bench.check(read.stream().map(String::new).distinct().count() == 1, "the leader has another one");
    }

    /** After a sync a client reads what a client at the leader wrote before it, in each of 50 rounds. */
    static void syncs(Bench bench) throws Exception {
        CuratorFramework near = bench.near(), far = bench.far();
        far.create().forPath("/sync", new byte[] {-1});
        for (byte round = 0; round < 50; round++) {
            far.setData().forPath("/sync", new byte[] {round});
            near.sync().forPath("/sync");
            Bench.equal(near.getData().forPath("/sync")[0], round);
        }
    }
}
