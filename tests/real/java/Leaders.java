import java.util.ArrayList;
import java.util.List;
import java.util.concurrent.CopyOnWriteArrayList;
import java.util.concurrent.CountDownLatch;
import java.util.concurrent.TimeUnit;
import java.util.concurrent.atomic.AtomicInteger;
import org.apache.curator.framework.CuratorFramework;
import org.apache.curator.framework.recipes.leader.LeaderLatch;
import org.apache.curator.framework.recipes.leader.LeaderLatchListener;
import org.apache.curator.framework.recipes.leader.LeaderSelector;
import org.apache.curator.framework.recipes.leader.LeaderSelectorListenerAdapter;

/** Elections. */
final class Leaders {
    private static long leading(List<LeaderLatch> latches) {
        return latches.stream().filter(LeaderLatch::hasLeadership).count();
    }

    /** Of several LeaderLatches one leads, and when it is closed the next one, to the last; all agree on who it is. */
    static void latch(Bench bench) throws Exception {
        List<LeaderLatch> latches = new ArrayList<>();
        for (CuratorFramework client : bench.four()) {
            latches.add(bench.ending(new LeaderLatch(client, "/latch", "number " + latches.size())));
            latches.get(latches.size() - 1).start();
        }
        while (!latches.isEmpty()) {
            Bench.until("one leads", () -> leading(latches) == 1);
            LeaderLatch leader = latches.stream().filter(LeaderLatch::hasLeadership).findFirst().get();
            Bench.until("all take part", () -> leader.getParticipants().size() == latches.size());
            for (LeaderLatch it : latches) {
                Bench.until("all agree", () -> it.getLeader().getId().equals(leader.getId()));
            }
            leader.close();
            latches.remove(leader);
        }
    }

    /** A LeaderLatch stops leading when its connection is cut, and leads again on the same session. */
    static void latchAfterCut(Bench bench) throws Exception {
        CuratorFramework client = bench.near();
        LeaderLatch latch = bench.ending(new LeaderLatch(client, "/cut"));
        CountDownLatch lost = new CountDownLatch(1);
        latch.addListener(new LeaderLatchListener() {
            @Override
            public void isLeader() {
            }

            @Override
            public void notLeader() {
                lost.countDown();
            }
        });
        latch.start();
        Bench.check(latch.await(Bench.SECONDS, TimeUnit.SECONDS), "nobody leads");
        long session = Bench.session(client);
        Bench.cut(client);
        Bench.check(lost.await(Bench.SECONDS, TimeUnit.SECONDS), "it leads on");
        Bench.until("it leads again", latch::hasLeadership);
        Bench.equal(Bench.session(client), session);
    }

    /** When the session of a LeaderLatch is ended, another one leads, and it stands behind that one again. */
    static void latchAfterExpiry(Bench bench) throws Exception {
        CuratorFramework client = bench.near();
        LeaderLatch first = bench.ending(new LeaderLatch(client, "/expired", "first"));
        LeaderLatch second = bench.ending(new LeaderLatch(bench.far(), "/expired", "second"));
        first.start();
        Bench.check(first.await(Bench.SECONDS, TimeUnit.SECONDS), "nobody leads");
        second.start();
        Bench.until("both take part", () -> second.getParticipants().size() == 2);
        bench.expire(client);
        Bench.check(second.await(Bench.SECONDS, TimeUnit.SECONDS), "a session that has ended leads");
        Bench.until("both take part", () -> second.getParticipants().size() == 2);
        second.close();
        Bench.check(first.await(Bench.SECONDS, TimeUnit.SECONDS), "nobody leads");
    }

    /** Several LeaderSelectors lead in turn, one at a time, each of them twice. */
    static void selector(Bench bench) throws Exception {
        AtomicInteger leading = new AtomicInteger();
        List<String> led = new CopyOnWriteArrayList<>();
        List<LeaderSelector> selectors = new ArrayList<>();
        for (CuratorFramework client : bench.four()) {
            String name = "number " + selectors.size();
            LeaderSelector it = new LeaderSelector(client, "/selector", new LeaderSelectorListenerAdapter() {
                @Override
                public void takeLeadership(CuratorFramework own) throws Exception {
                    led.add(leading.incrementAndGet() == 1 ? name : "two lead");
                    Thread.sleep(20);
                    leading.decrementAndGet();
                }
            });
            it.setId(name);
            it.autoRequeue();
            selectors.add(bench.ending(it));
            it.start();
        }
        for (LeaderSelector it : selectors) {
            Bench.until("each leads twice", () -> led.stream().filter(it.getId()::equals).count() >= 2);
        }
        Bench.check(!led.contains("two lead"), "two lead");
    }

    /** A LeaderSelector that is interrupted gives the lead to the next one. */
    static void selectorInterrupted(Bench bench) throws Exception {
        List<CountDownLatch> led = List.of(new CountDownLatch(1), new CountDownLatch(1));
        List<LeaderSelector> selectors = new ArrayList<>();
        for (CuratorFramework client : List.of(bench.near(), bench.far())) {
            CountDownLatch begun = led.get(selectors.size());
            LeaderSelector it = new LeaderSelector(client, "/interrupted", new LeaderSelectorListenerAdapter() {
                @Override
                public void takeLeadership(CuratorFramework own) throws Exception {
                    begun.countDown();
                    Thread.sleep(60_000);
                }
            });
            it.setId("number " + selectors.size());
            selectors.add(bench.ending(it));
            it.start();
            Bench.until("it takes part", () -> it.getParticipants().size() == selectors.size());
        }
        Bench.check(led.get(0).await(Bench.SECONDS, TimeUnit.SECONDS), "the first doesn't lead");
        Bench.equal(selectors.get(1).getLeader().getId(), "number 0");
        selectors.get(0).interruptLeadership();
        Bench.check(led.get(1).await(Bench.SECONDS, TimeUnit.SECONDS), "the second doesn't lead");
    }
}
