import java.util.ArrayList;
import java.util.Arrays;
import java.util.List;
import java.util.Set;
import java.util.concurrent.CopyOnWriteArrayList;
import java.util.concurrent.TimeUnit;
import java.util.concurrent.atomic.AtomicInteger;
import org.apache.curator.framework.CuratorFramework;
import org.apache.curator.framework.recipes.barriers.DistributedBarrier;
import org.apache.curator.framework.recipes.barriers.DistributedDoubleBarrier;
import org.apache.curator.framework.recipes.nodes.GroupMember;
import org.apache.curator.framework.recipes.shared.SharedCount;
import org.apache.curator.framework.recipes.shared.SharedCountListener;
import org.apache.curator.framework.recipes.shared.SharedCountReader;
import org.apache.curator.framework.recipes.shared.SharedValue;
import org.apache.curator.framework.recipes.shared.VersionedValue;
import org.apache.curator.framework.state.ConnectionState;

/** Barriers, shared values and groups. */
final class Shared {
    /** A DistributedBarrier holds three clients up until a fourth one removes it. */
    static void barrier(Bench bench) throws Exception {
        List<CuratorFramework> clients = bench.four();
        DistributedBarrier own = new DistributedBarrier(clients.get(3), "/barrier");
        own.setBarrier();
        AtomicInteger passed = new AtomicInteger();
        List<Bench.Job> jobs = new ArrayList<>();
        for (CuratorFramework client : clients.subList(0, 3)) {
            Bench.sync(client);
            jobs.add(() -> {
                DistributedBarrier barrier = new DistributedBarrier(client, "/barrier");
                Bench.check(barrier.waitOnBarrier(Bench.SECONDS, TimeUnit.SECONDS), "it is shut");
                passed.incrementAndGet();
            });
        }
        jobs.add(() -> {
            Thread.sleep(500);
            Bench.equal(passed.get(), 0);
            own.removeBarrier();
        });
        bench.atOnce(jobs);
        Bench.equal(passed.get(), 3);
    }

    /** A DistributedDoubleBarrier lets four clients in when all have come, and out when all want to leave. */
    static void doubleBarrier(Bench bench) throws Exception {
        AtomicInteger came = new AtomicInteger(), leaves = new AtomicInteger();
        List<Bench.Job> jobs = new ArrayList<>();
        for (CuratorFramework client : bench.four()) {
            int late = 100 * jobs.size();
            jobs.add(() -> {
                DistributedDoubleBarrier barrier = new DistributedDoubleBarrier(client, "/double", 4);
                Thread.sleep(late);
                came.incrementAndGet();
                Bench.check(barrier.enter(Bench.SECONDS, TimeUnit.SECONDS), "it isn't let in");
                Bench.equal(came.get(), 4);
                Thread.sleep(late);
                leaves.incrementAndGet();
                Bench.check(barrier.leave(Bench.SECONDS, TimeUnit.SECONDS), "it isn't let out");
                Bench.equal(leaves.get(), 4);
            });
        }
        bench.atOnce(jobs);
    }

    /** A SharedCount is set by one client and told to the other; one that is set by an old version isn't set. */
    static void sharedCount(Bench bench) throws Exception {
        SharedCount here = bench.ending(new SharedCount(bench.near(), "/count", 1));
        SharedCount there = bench.ending(new SharedCount(bench.far(), "/count", 1));
        List<Integer> told = new CopyOnWriteArrayList<>();
        here.start();
        here.addListener(new SharedCountListener() {
            @Override
            public void countHasChanged(SharedCountReader own, int count) {
                told.add(count);
            }

            @Override
            public void stateChanged(CuratorFramework client, ConnectionState state) {
            }
        });
        there.start();
        VersionedValue<Integer> old = there.getVersionedValue();
        there.setCount(2);
        Bench.until("it is told", () -> here.getCount() == 2 && told.contains(2));
        Bench.check(!there.trySetCount(old, 9), "an old version is set");
        Bench.check(here.trySetCount(here.getVersionedValue(), 3), "the present version isn't set");
        Bench.until("it is told", () -> there.getCount() == 3);
    }

    /** A SharedValue is set by one client and told to the other, also after a cut. */
    static void sharedValue(Bench bench) throws Exception {
        CuratorFramework near = bench.near();
        SharedValue here = bench.ending(new SharedValue(near, "/value", new byte[] {0}));
        SharedValue there = bench.ending(new SharedValue(bench.far(), "/value", new byte[] {0}));
        here.start();
        there.start();
        there.setValue(new byte[] {1});
        Bench.until("it is told", () -> Arrays.equals(here.getValue(), new byte[] {1}));
        Bench.cut(near);
        there.setValue(new byte[] {2});
        Bench.until("it is told after a cut", () -> Arrays.equals(here.getValue(), new byte[] {2}));
        Bench.check(here.trySetValue(here.getVersionedValue(), new byte[] {3}), "the present version isn't set");
        Bench.until("it is told", () -> Arrays.equals(there.getValue(), new byte[] {3}));
    }

    /** GroupMembers see who is in their group, with their data, and who has left it. */
    static void groupMember(Bench bench) throws Exception {
        GroupMember here = bench.ending(new GroupMember(bench.near(), "/group", "here", new byte[] {1}));
        GroupMember there = bench.ending(new GroupMember(bench.far(), "/group", "there", new byte[] {2}));
        here.start();
        there.start();
        for (GroupMember it : List.of(here, there)) {
            Bench.until("both are in", () -> it.getCurrentMembers().keySet().equals(Set.of("here", "there")));
        }
        Bench.equal(here.getCurrentMembers().get("there")[0], (byte) 2);
        there.setThisData(new byte[] {3});
        Bench.until("its data is seen", () -> here.getCurrentMembers().get("there")[0] == 3);
        there.close();
        Bench.until("one has left", () -> here.getCurrentMembers().keySet().equals(Set.of("here")));
    }
}
