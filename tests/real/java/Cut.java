package org.apache.zookeeper;

/** Closes the socket of a client, which only its own package can. */
public final class Cut {
    private Cut() {
    }

    public static void cut(ZooKeeper client) throws Exception {
        client.cnxn.sendThread.testableCloseSocket();
    }
}
