import java.util.ArrayList;
import java.util.List;
import java.util.concurrent.CopyOnWriteArrayList;
import java.util.concurrent.TimeUnit;
import java.util.stream.Collectors;
import java.util.stream.IntStream;
import org.apache.curator.framework.CuratorFramework;
import org.apache.curator.framework.recipes.queue.DistributedDelayQueue;
import org.apache.curator.framework.recipes.queue.DistributedIdQueue;
import org.apache.curator.framework.recipes.queue.DistributedPriorityQueue;
import org.apache.curator.framework.recipes.queue.DistributedQueue;
import org.apache.curator.framework.recipes.queue.MultiItem;
import org.apache.curator.framework.recipes.queue.QueueBuilder;
import org.apache.curator.framework.recipes.queue.QueueConsumer;
import org.apache.curator.framework.recipes.queue.QueueSerializer;
import org.apache.curator.framework.recipes.queue.SimpleDistributedQueue;
import org.apache.curator.framework.state.ConnectionState;

/** Queues. */
final class Queues {
    private static final int ITEMS = 30;

    private static final QueueSerializer<String> TEXTS = new QueueSerializer<String>() {
        @Override
        public byte[] serialize(String item) {
            return item.getBytes();
        }

        @Override
        public String deserialize(byte[] bytes) {
            return new String(bytes);
        }
    };

    private static QueueConsumer<String> into(List<String> taken) {
        return new QueueConsumer<String>() {
            @Override
            public void consumeMessage(String item) {
                taken.add(item);
            }

            @Override
            public void stateChanged(CuratorFramework client, ConnectionState state) {
            }
        };
    }

    private static QueueBuilder<String> queue(CuratorFramework client, QueueConsumer<String> consumer, String path) {
        return QueueBuilder.builder(client, consumer, TEXTS, path);
    }

    private static List<String> items(int count) {
        return IntStream.range(0, count).mapToObj(it -> String.format("item %02d", it)).collect(Collectors.toList());
    }

    private static void isTaken(List<String> taken, List<String> wanted) throws Exception {
        Bench.until("all are taken", () -> taken.size() >= wanted.size());
        Bench.equal(taken.stream().sorted().collect(Collectors.toList()), wanted);
    }

    /** What one client puts into a DistributedQueue, one by one and several at once, another one takes in order. */
    static void distributedQueue(Bench bench) throws Exception {
        List<String> taken = new CopyOnWriteArrayList<>(), wanted = items(ITEMS);
        DistributedQueue<String> putter = bench.ending(queue(bench.far(), null, "/queue").buildQueue());
        DistributedQueue<String> taker = bench.ending(queue(bench.near(), into(taken), "/queue").buildQueue());
        putter.start();
        taker.start();
        for (String it : wanted.subList(0, ITEMS / 2)) {
            putter.put(it);
        }
        List<String> rest = new ArrayList<>(wanted.subList(ITEMS / 2, ITEMS));
        putter.putMulti(new MultiItem<String>() {
            @Override
            public String nextItem() {
                return rest.isEmpty() ? null : rest.remove(0);
            }
        });
        Bench.check(putter.flushPuts(Bench.SECONDS, TimeUnit.SECONDS), "puts are under way");
        isTaken(taken, wanted);
        Bench.equal(taken, wanted);
    }

    /** Each item of a DistributedQueue with locks is taken once, by one of three clients. */
    static void queueWithLocks(Bench bench) throws Exception {
        List<String> taken = new CopyOnWriteArrayList<>(), wanted = items(ITEMS);
        for (CuratorFramework client : List.of(bench.near(), bench.near(), bench.far())) {
            QueueBuilder<String> made = queue(client, into(taken), "/safe").lockPath("/safe-locks");
            bench.ending(made.buildQueue()).start();
        }
        DistributedQueue<String> putter = bench.ending(queue(bench.near(), null, "/safe").buildQueue());
        putter.start();
        for (String it : wanted) {
            putter.put(it);
        }
        isTaken(taken, wanted);
        Thread.sleep(300);
        Bench.equal(taken.size(), wanted.size());
    }

    /** A DistributedPriorityQueue gives those of a lower number first. */
    static void priorityQueue(Bench bench) throws Exception {
        List<String> taken = new CopyOnWriteArrayList<>(), wanted = items(ITEMS);
        DistributedPriorityQueue<String> putter =
                bench.ending(queue(bench.near(), null, "/priority").buildPriorityQueue(0));
        putter.start();
        for (int number = ITEMS - 1; number >= 0; number--) {
            putter.put(wanted.get(number), number);
        }
        Bench.check(putter.flushPuts(Bench.SECONDS, TimeUnit.SECONDS), "puts are under way");
        CuratorFramework client = bench.near();
        Bench.sync(client);
        bench.ending(queue(client, into(taken), "/priority").buildPriorityQueue(0)).start();
        isTaken(taken, wanted);
        Bench.equal(taken, wanted);
    }

    /** An item of a DistributedIdQueue can be removed by its id. */
    static void idQueue(Bench bench) throws Exception {
        List<String> taken = new CopyOnWriteArrayList<>();
        CuratorFramework client = bench.near();
        DistributedIdQueue<String> putter = bench.ending(queue(client, null, "/id").buildIdQueue());
        putter.start();
        for (String it : items(6)) {
            putter.put(it, it.substring(5));
        }
        Bench.check(putter.flushPuts(Bench.SECONDS, TimeUnit.SECONDS), "puts are under way");
        Bench.equal(putter.remove("03"), 1);
        Bench.equal(putter.remove("99"), 0);
        bench.ending(queue(client, into(taken), "/id").buildIdQueue()).start();
        isTaken(taken, List.of("item 00", "item 01", "item 02", "item 04", "item 05"));
    }

    /** An item of a DistributedDelayQueue is taken when its time has come. */
    static void delayQueue(Bench bench) throws Exception {
        List<String> taken = new CopyOnWriteArrayList<>();
        DistributedDelayQueue<String> queue =
                bench.ending(queue(bench.near(), into(taken), "/delay").buildDelayQueue());
        queue.start();
        long now = System.currentTimeMillis();
        queue.put("late", now + 1500);
        queue.put("early", now + 500);
        Bench.until("both are taken", () -> taken.size() == 2);
        Bench.equal(taken, List.of("early", "late"));
        Bench.check(System.currentTimeMillis() >= now + 1500, "taken too early");
    }

    /** A SimpleDistributedQueue: offered, looked at, polled, waited for, and taken by two clients. */
    static void simpleQueue(Bench bench) throws Exception {
        SimpleDistributedQueue here = new SimpleDistributedQueue(bench.near(), "/simple");
        SimpleDistributedQueue there = new SimpleDistributedQueue(bench.far(), "/simple");
        Bench.check(here.poll() == null && here.peek() == null, "it isn't empty");
        Bench.check(here.poll(300, TimeUnit.MILLISECONDS) == null, "it isn't empty");
        here.offer("a".getBytes());
        Bench.equal(new String(there.peek()), "a");
        Bench.equal(new String(there.remove()), "a");
        bench.atOnce(List.of(
                () -> Bench.equal(new String(here.take()), "b"),
                () -> {
                    Thread.sleep(300);
                    there.offer("b".getBytes());
                }));
        for (int number = 0; number < ITEMS; number++) {
            (number % 2 == 0 ? here : there).offer(new byte[] {(byte) number});
        }
        for (int number = 0; number < ITEMS; number++) {
            Bench.equal((int) here.poll(Bench.SECONDS, TimeUnit.SECONDS)[0], number);
        }
    }
}
