import java.util.ArrayList;
import java.util.Collection;
import java.util.List;
import java.util.concurrent.CountDownLatch;
import java.util.concurrent.TimeUnit;
import java.util.function.Function;
import org.apache.curator.framework.CuratorFramework;
import org.apache.curator.framework.recipes.locks.InterProcessLock;
import org.apache.curator.framework.recipes.locks.InterProcessMultiLock;
import org.apache.curator.framework.recipes.locks.InterProcessMutex;
import org.apache.curator.framework.recipes.locks.InterProcessReadWriteLock;
import org.apache.curator.framework.recipes.locks.InterProcessSemaphoreMutex;
import org.apache.curator.framework.recipes.locks.InterProcessSemaphoreV2;
import org.apache.curator.framework.recipes.locks.Lease;
import org.apache.curator.framework.recipes.locks.Revoker;
import org.apache.curator.framework.recipes.shared.SharedCount;

/** Locks and semaphores. */
final class Locks {
    private static final int TURNS = 5;

    private static void oneAtATime(Bench bench, Function<CuratorFramework, InterProcessLock> made) throws Exception {
        Bench.Room room = new Bench.Room(1);
        List<Bench.Job> jobs = new ArrayList<>();
        for (CuratorFramework client : bench.four()) {
            jobs.add(() -> {
                InterProcessLock lock = made.apply(client);
                for (int turn = 0; turn < TURNS; turn++) {
                    Bench.check(lock.acquire(20, TimeUnit.SECONDS), "the lock isn't had");
                    room.visit();
                    lock.release();
                }
            });
        }
        bench.atOnce(jobs);
        Bench.equal(room.visits(), 4 * TURNS);
    }

    /** An InterProcessMutex is held by one client at a time, and by its holder as often as it likes. */
    static void mutex(Bench bench) throws Exception {
        oneAtATime(bench, client -> new InterProcessMutex(client, "/mutex"));
        InterProcessMutex lock = new InterProcessMutex(bench.near(), "/again");
        lock.acquire();
        lock.acquire();
        InterProcessMutex other = new InterProcessMutex(bench.far(), "/again");
        Bench.check(!other.acquire(300, TimeUnit.MILLISECONDS), "two hold the lock");
        lock.release();
        Bench.check(!other.acquire(300, TimeUnit.MILLISECONDS), "it is let go too early");
        lock.release();
        Bench.check(other.acquire(Bench.SECONDS, TimeUnit.SECONDS), "it isn't let go");
    }

    /** An InterProcessMutex passes on when its holder's client is closed, and when its session is ended. */
    static void mutexPasses(Bench bench) throws Exception {
        CuratorFramework first = bench.near(), second = bench.near();
        new InterProcessMutex(first, "/passes").acquire();
        InterProcessMutex next = new InterProcessMutex(second, "/passes");
        Bench.check(!next.acquire(300, TimeUnit.MILLISECONDS), "two hold the lock");
        first.close();
        Bench.check(next.acquire(Bench.SECONDS, TimeUnit.SECONDS), "a closed client holds it");
        InterProcessMutex last = new InterProcessMutex(bench.far(), "/passes");
        Bench.check(!last.acquire(300, TimeUnit.MILLISECONDS), "two hold the lock");
        bench.expire(second);
        Bench.check(last.acquire(Bench.SECONDS, TimeUnit.SECONDS), "a session that has ended holds it");
    }

    /** The holder of an InterProcessMutex keeps it when its connection is cut. */
    static void mutexAfterCut(Bench bench) throws Exception {
        CuratorFramework client = bench.near();
        InterProcessMutex lock = new InterProcessMutex(client, "/cut");
        lock.acquire();
        Bench.cut(client);
        client.setData().forPath("/cut", new byte[1]);
        InterProcessMutex other = new InterProcessMutex(bench.near(), "/cut");
        Bench.check(!other.acquire(500, TimeUnit.MILLISECONDS), "two hold the lock");
        lock.release();
        Bench.check(other.acquire(Bench.SECONDS, TimeUnit.SECONDS), "it isn't let go");
    }

    /** The holder of an InterProcessMutex is told that another client wants it back. */
    static void revoking(Bench bench) throws Exception {
        InterProcessMutex lock = new InterProcessMutex(bench.near(), "/revoke");
        CountDownLatch told = new CountDownLatch(1);
        lock.makeRevocable(it -> told.countDown());
        lock.acquire();
        String holder = lock.getParticipantNodes().iterator().next();
        Revoker.attemptRevoke(bench.far(), holder);
        Bench.check(told.await(Bench.SECONDS, TimeUnit.SECONDS), "it isn't told");
        lock.release();
    }

    /** An InterProcessSemaphoreMutex is held by one client at a time. */
    static void semaphoreMutex(Bench bench) throws Exception {
        oneAtATime(bench, client -> new InterProcessSemaphoreMutex(client, "/semaphore-mutex"));
    }

    /** The write lock of an InterProcessReadWriteLock is held alone, its read lock by several. */
    static void readWriteLock(Bench bench) throws Exception {
        oneAtATime(bench, client -> new InterProcessReadWriteLock(client, "/read-write").writeLock());
        InterProcessReadWriteLock here = new InterProcessReadWriteLock(bench.near(), "/read-write");
        InterProcessReadWriteLock there = new InterProcessReadWriteLock(bench.far(), "/read-write");
        here.readLock().acquire();
        Bench.check(there.readLock().acquire(Bench.SECONDS, TimeUnit.SECONDS), "two can't read");
        Bench.check(!there.writeLock().acquire(300, TimeUnit.MILLISECONDS), "it is written while it is read");
        there.readLock().release();
        here.readLock().release();
        here.writeLock().acquire();
        here.readLock().acquire();
        here.writeLock().release();
        Bench.check(there.readLock().acquire(Bench.SECONDS, TimeUnit.SECONDS), "a reader keeps readers out");
    }

    /** An InterProcessSemaphoreV2 has as many leases as its number says, or a SharedCount. */
    static void semaphore(Bench bench) throws Exception {
        Bench.Room room = new Bench.Room(2);
        List<Bench.Job> jobs = new ArrayList<>();
        for (CuratorFramework client : bench.four()) {
            jobs.add(() -> {
                InterProcessSemaphoreV2 semaphore = new InterProcessSemaphoreV2(client, "/semaphore", 2);
                for (int turn = 0; turn < TURNS; turn++) {
                    Lease lease = semaphore.acquire(20, TimeUnit.SECONDS);
                    Bench.check(lease != null, "no lease");
                    room.visit();
                    semaphore.returnLease(lease);
                }
            });
        }
        bench.atOnce(jobs);
        Bench.equal(room.visits(), 4 * TURNS);
        CuratorFramework client = bench.near();
        SharedCount count = bench.ending(new SharedCount(client, "/leases", 3));
        count.start();
        InterProcessSemaphoreV2 counted = new InterProcessSemaphoreV2(client, "/counted", count);
        Collection<Lease> leases = counted.acquire(3, Bench.SECONDS, TimeUnit.SECONDS);
        Bench.equal(counted.getParticipantNodes().size(), 3);
        Bench.check(counted.acquire(300, TimeUnit.MILLISECONDS) == null, "a fourth lease of three");
        count.setCount(4);
        Bench.check(counted.acquire(Bench.SECONDS, TimeUnit.SECONDS) != null, "no fourth lease of four");
        counted.returnAll(leases);
    }

    /** An InterProcessMultiLock has all of its locks or none. */
    static void multiLock(Bench bench) throws Exception {
        oneAtATime(bench, client -> new InterProcessMultiLock(client, List.of("/multi/a", "/multi/b")));
        CuratorFramework client = bench.near();
        new InterProcessMutex(bench.far(), "/multi/b").acquire();
        InterProcessLock both = new InterProcessMultiLock(client, List.of("/multi/a", "/multi/b"));
        Bench.check(!both.acquire(500, TimeUnit.MILLISECONDS), "a lock of another client is had");
        InterProcessMutex first = new InterProcessMutex(bench.near(), "/multi/a");
        Bench.check(first.acquire(Bench.SECONDS, TimeUnit.SECONDS), "one is kept");
    }
}
