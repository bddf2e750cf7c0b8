import java.util.ArrayList;
import java.util.Arrays;
import java.util.HashSet;
import java.util.List;
import java.util.Set;
import java.util.concurrent.TimeUnit;
import org.apache.curator.framework.CuratorFramework;
import org.apache.curator.framework.recipes.atomic.AtomicValue;
import org.apache.curator.framework.recipes.atomic.CachedAtomicLong;
import org.apache.curator.framework.recipes.atomic.DistributedAtomicInteger;
import org.apache.curator.framework.recipes.atomic.DistributedAtomicLong;
import org.apache.curator.framework.recipes.atomic.DistributedAtomicValue;
import org.apache.curator.framework.recipes.atomic.PromotedToLock;
import org.apache.curator.retry.RetryNTimes;

/** Atomic values. */
final class Atomics {
    private static final int TURNS = 10;
    private static final RetryNTimes OFTEN = new RetryNTimes(100, 10), NEVER = new RetryNTimes(0, 0);

    /** Increments of a DistributedAtomicLong by several clients aren't lost. */
    static void atomicLong(Bench bench) throws Exception {
        List<Bench.Job> jobs = new ArrayList<>();
        for (CuratorFramework client : bench.four()) {
            jobs.add(() -> {
                DistributedAtomicLong number = new DistributedAtomicLong(client, "/long", OFTEN);
                for (int turn = 0; turn < TURNS; turn++) {
                    AtomicValue<Long> found = number.increment();
                    Bench.check(found.succeeded() && found.postValue() == found.preValue() + 1, "no increment");
                }
            });
        }
        bench.atOnce(jobs);
        DistributedAtomicLong number = new DistributedAtomicLong(bench.far(), "/long", OFTEN);
        Bench.equal(number.get().postValue(), 4L * TURNS);
        Bench.equal(number.subtract(5L).postValue(), 4L * TURNS - 5);
    }

    /** A DistributedAtomicLong that may not retry is promoted to a lock, and loses no increment. */
    static void promotedToLock(Bench bench) throws Exception {
        List<Bench.Job> jobs = new ArrayList<>();
        for (CuratorFramework client : bench.four()) {
            jobs.add(() -> {
                PromotedToLock lock = PromotedToLock.builder().lockPath("/promoted-lock").retryPolicy(OFTEN)
                        .timeout(20, TimeUnit.SECONDS).build();
                DistributedAtomicLong number = new DistributedAtomicLong(client, "/promoted", NEVER, lock);
                for (int turn = 0; turn < TURNS; turn++) {
                    Bench.check(number.add(2L).succeeded(), "no increment");
                }
            });
        }
        bench.atOnce(jobs);
        Bench.equal(new DistributedAtomicLong(bench.far(), "/promoted", OFTEN).get().postValue(), 8L * TURNS);
    }

    /** A DistributedAtomicInteger is initialized once, and compared before it is set. */
    static void atomicInteger(Bench bench) throws Exception {
        DistributedAtomicInteger here = new DistributedAtomicInteger(bench.near(), "/integer", OFTEN);
        DistributedAtomicInteger there = new DistributedAtomicInteger(bench.far(), "/integer", OFTEN);
        Bench.check(here.initialize(7), "it is there");
        Bench.check(!there.initialize(8), "it is initialized twice");
        Bench.check(there.compareAndSet(7, 9).succeeded(), "it isn't 7");
        Bench.check(!here.compareAndSet(7, 10).succeeded(), "it is 7");
        Bench.equal(here.decrement().postValue(), 8);
    }

    /** A DistributedAtomicValue is set and read by two clients, and is compared before it is set. */
    static void atomicValue(Bench bench) throws Exception {
        DistributedAtomicValue here = new DistributedAtomicValue(bench.near(), "/value", OFTEN);
        DistributedAtomicValue there = new DistributedAtomicValue(bench.far(), "/value", OFTEN);
        byte[] one = {1}, two = {2}, three = {3};
        Bench.check(here.trySet(one).succeeded(), "it can't be set");
        Bench.check(!there.compareAndSet(two, three).succeeded(), "it is another one");
        Bench.check(there.compareAndSet(one, two).succeeded(), "it isn't the first one");
        there.forceSet(three);
        Bench.until("it is the third one", () -> Arrays.equals(here.get().postValue(), three));
    }

    /** Numbers of a CachedAtomicLong, taken by several clients, are all different. */
    static void cachedAtomicLong(Bench bench) throws Exception {
        Set<Long> numbers = new HashSet<>();
        List<Bench.Job> jobs = new ArrayList<>();
        for (CuratorFramework client : bench.four()) {
            CachedAtomicLong cached = new CachedAtomicLong(new DistributedAtomicLong(client, "/cached", OFTEN), 4);
            jobs.add(() -> {
                for (int turn = 0; turn < TURNS; turn++) {
                    AtomicValue<Long> found = cached.next();
                    Bench.check(found.succeeded(), "no number");
                    synchronized (numbers) {
                        Bench.check(numbers.add(found.postValue()), "a number that was taken");
                    }
                }
            });
        }
        bench.atOnce(jobs);
        Bench.equal(numbers.size(), 4 * TURNS);
    }
}
