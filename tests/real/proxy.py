"""A proxy on 127.0.0.1 whose connections can be cut, so that a client has to come back, and one of whose directions can
be held up, so that it falls behind."""
import contextlib
import socket
import threading


class Proxy:
    """Hands on bytes between clients and a port, until it is closed; `cut` ends the connections of now. `flows` says
    whether what the port sends is handed on."""

    def __init__(self, port):
        self.target, self.is_open = port, True
        self.listener = socket.create_server(("127.0.0.1", 0))
        self.port = self.listener.getsockname()[1]
        self.lock, self.sockets = threading.Lock(), []
        self.flows = threading.Event()
        self.flows.set()
        self.count = 0
        threading.Thread(target=self.accept, daemon=True).start()

    def accept(self):
        while True:
            try:
                client, _ = self.listener.accept()
            except OSError:
                return
            with self.lock:
                is_open = self.is_open
                self.count += 1
            try:
                server = socket.create_connection(("127.0.0.1", self.target), 5) if is_open else None
            except OSError:
                server = None
            if server is None:
                client.close()
                continue
            server.settimeout(None)
            with self.lock:
                self.sockets += [client, server]
            for pair in ((client, server), (server, client)):
                threading.Thread(target=self.hand_on, args=(*pair, pair[0] is server), daemon=True).start()

    def hand_on(self, source, sink, can_be_held):
        with contextlib.suppress(OSError):
            for data in iter(lambda: source.recv(65536), b""):
                if can_be_held:
                    self.flows.wait()
                sink.sendall(data)
        for it in (source, sink):
            with contextlib.suppress(OSError):
                it.shutdown(socket.SHUT_RDWR)

    def cut(self):
        """Ends all connections, and lets none be made until `mend`."""
        with self.lock:
            self.is_open = False
            for it in self.sockets:
                with contextlib.suppress(OSError):
                    it.shutdown(socket.SHUT_RDWR)
                it.close()
            self.sockets.clear()

    def mend(self):
        with self.lock:
            self.is_open = True

    def close(self):
        self.flows.set()
        self.cut()
        self.listener.close()
