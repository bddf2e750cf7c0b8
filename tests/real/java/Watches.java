import java.util.List;
import java.util.concurrent.CopyOnWriteArrayList;
import org.apache.curator.framework.CuratorFramework;
import org.apache.curator.framework.WatcherRemoveCuratorFramework;
import org.apache.curator.framework.api.CuratorWatcher;
import org.apache.curator.framework.recipes.watch.PersistentWatcher;
import org.apache.zookeeper.AddWatchMode;
import org.apache.zookeeper.KeeperException;
import org.apache.zookeeper.Watcher;

/** Watches that are left, told of, and removed. */
final class Watches {
    private static CuratorWatcher into(List<String> told) {
        return event -> {
            if (event.getType().name().startsWith("Node")) {
                told.add(event.getType() + " " + event.getPath());
            }
        };
    }

    /** A watch of each kind is told once of what a client at the leader does. */
    static void oneShot(Bench bench) throws Exception {
        CuratorFramework near = bench.near(), far = bench.far();
        List<String> told = new CopyOnWriteArrayList<>();
        near.checkExists().usingWatcher(into(told)).forPath("/watched");
        far.create().forPath("/watched");
        Bench.until("it is made", () -> told.equals(List.of("NodeCreated /watched")));
        near.getData().usingWatcher(into(told)).forPath("/watched");
        near.getChildren().usingWatcher(into(told)).forPath("/watched");
        far.create().forPath("/watched/child");
        Bench.until("a child is made", () -> told.size() == 2);
        far.setData().forPath("/watched", new byte[1]);
        Bench.until("it is set", () -> told.size() == 3);
        far.delete().deletingChildrenIfNeeded().forPath("/watched");
        Bench.sync(near);
        Bench.equal(told.subList(1, 3), List.of("NodeChildrenChanged /watched", "NodeDataChanged /watched"));
        Bench.equal(told.size(), 3);
    }

    /** A persistent watch is told of each change of its node and its children, a recursive one of all below it. */
    static void lasting(Bench bench) throws Exception {
        CuratorFramework near = bench.near(), far = bench.far();
        List<String> told = new CopyOnWriteArrayList<>(), recursive = new CopyOnWriteArrayList<>();
        near.watchers().add().withMode(AddWatchMode.PERSISTENT).usingWatcher(into(told)).forPath("/lasting");
        near.watchers().add().withMode(AddWatchMode.PERSISTENT_RECURSIVE).usingWatcher(into(recursive))
                .forPath("/deep");
        for (int turn = 0; turn < 3; turn++) {
            far.create().forPath("/lasting");
            far.create().forPath("/lasting/child");
            far.delete().deletingChildrenIfNeeded().forPath("/lasting");
            far.create().creatingParentsIfNeeded().forPath("/deep/a/b");
            far.setData().forPath("/deep/a/b", new byte[1]);
            far.delete().deletingChildrenIfNeeded().forPath("/deep");
        }
        Bench.sync(near);
        Bench.until("all is told", () -> told.size() >= 12 && recursive.size() >= 21);
        Bench.equal(told.subList(0, 4), List.of("NodeCreated /lasting", "NodeChildrenChanged /lasting",
                "NodeChildrenChanged /lasting", "NodeDeleted /lasting"));
        Bench.equal(recursive.subList(0, 4), List.of("NodeCreated /deep", "NodeCreated /deep/a",
                "NodeCreated /deep/a/b", "NodeDataChanged /deep/a/b"));
        Bench.equal(told.size() + recursive.size(), 12 + 21);
    }

    /** Lasting and one-shot watches are set again after a cut, and what happened meanwhile is told. */
    static void afterCut(Bench bench) throws Exception {
        CuratorFramework near = bench.near(), far = bench.far();
        List<String> told = new CopyOnWriteArrayList<>(), once = new CopyOnWriteArrayList<>();
        far.create().creatingParentsIfNeeded().forPath("/again/child");
        Bench.sync(near);
        near.watchers().add().withMode(AddWatchMode.PERSISTENT_RECURSIVE).usingWatcher(into(told)).forPath("/again");
        near.getData().usingWatcher(into(once)).forPath("/again");
        Bench.cut(near);
        far.setData().forPath("/again", new byte[1]);
        Bench.until("what was missed is told", () -> once.equals(List.of("NodeDataChanged /again")));
        Bench.sync(near);
        told.clear();
        far.setData().forPath("/again/child", new byte[1]);
        Bench.until("the recursive watch is there", () -> told.equals(List.of("NodeDataChanged /again/child")));
    }

    /** A watch that is removed tells nothing, and the others do; one that isn't there can't be removed. */
    static void removed(Bench bench) throws Exception {
        CuratorFramework near = bench.near(), far = bench.far();
        far.create().forPath("/removed");
        Bench.sync(near);
        List<String> told = new CopyOnWriteArrayList<>(), other = new CopyOnWriteArrayList<>();
        CuratorWatcher first = into(told);
        near.getData().usingWatcher(first).forPath("/removed");
        near.getChildren().usingWatcher(into(other)).forPath("/removed");
        near.watchers().remove(first).ofType(Watcher.WatcherType.Data).forPath("/removed");
        far.setData().forPath("/removed", new byte[1]);
        far.create().forPath("/removed/child");
        Bench.until("the other one tells", () -> other.contains("NodeChildrenChanged /removed"));
        Bench.equal(told, List.of());
        try {
            near.watchers().removeAll().ofType(Watcher.WatcherType.Any).forPath("/removed/child");
            Bench.check(false, "a watch that isn't there is removed");
        } catch (KeeperException.NoWatcherException why) {
            near.watchers().removeAll().quietly().forPath("/removed/child");
        }
    }

    /** Lasting watches are removed, and tell nothing any more. */
    static void lastingRemoved(Bench bench) throws Exception {
        CuratorFramework near = bench.near(), far = bench.far();
        far.create().forPath("/lasting");
        Bench.sync(near);
        List<String> told = new CopyOnWriteArrayList<>(), end = new CopyOnWriteArrayList<>();
        near.watchers().add().withMode(AddWatchMode.PERSISTENT).usingWatcher(into(told)).forPath("/lasting");
        near.watchers().removeAll().forPath("/lasting");
        near.checkExists().usingWatcher(into(end)).forPath("/end");
        far.setData().forPath("/lasting", new byte[1]);
        far.create().forPath("/end");
        Bench.until("what comes after it is told", () -> end.contains("NodeCreated /end"));
        Bench.equal(told, List.of());
    }

    /** A framework that removes its watches leaves none at the server. */
    static void removedTogether(Bench bench) throws Exception {
        CuratorFramework near = bench.near(), far = bench.far();
        far.create().forPath("/a");
        far.create().forPath("/b");
        Bench.sync(near);
        List<String> told = new CopyOnWriteArrayList<>(), end = new CopyOnWriteArrayList<>();
        WatcherRemoveCuratorFramework removing = near.newWatcherRemoveCuratorFramework();
        removing.getData().usingWatcher(into(told)).forPath("/a");
        removing.checkExists().usingWatcher(into(told)).forPath("/c");
        removing.getChildren().usingWatcher(into(told)).forPath("/b");
        removing.removeWatchers();
        Bench.sync(near);
        near.checkExists().usingWatcher(into(end)).forPath("/end");
        far.setData().forPath("/a", new byte[1]);
        far.create().forPath("/c");
        far.create().forPath("/b/child");
        far.create().forPath("/end");
        Bench.until("what comes after it is told", () -> end.contains("NodeCreated /end"));
        Bench.equal(told, List.of());
    }

    /** A PersistentWatcher is told through a cut, and nothing once it is closed. */
    static void persistentWatcher(Bench bench) throws Exception {
        CuratorFramework near = bench.near(), far = bench.far();
        List<String> told = new CopyOnWriteArrayList<>();
        PersistentWatcher watcher = bench.ending(new PersistentWatcher(near, "/watcher", true));
        watcher.getListenable().addListener(event -> told.add(event.getType() + " " + event.getPath()));
        watcher.start();
        Bench.until("it is there", () -> {
            far.create().orSetData().forPath("/watcher", new byte[1]);
            Bench.sync(near);
            return !told.isEmpty();
        });
        Bench.cut(near);
        near.checkExists().forPath("/");
        far.create().forPath("/watcher/below");
        Bench.until("it is told after a cut", () -> told.contains("NodeCreated /watcher/below"));
        watcher.close();
        Bench.sync(near);
        told.clear();
        far.setData().forPath("/watcher/below", new byte[1]);
        Bench.sync(near);
        Bench.equal(told, List.of());
    }
}
