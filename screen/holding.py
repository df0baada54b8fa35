"""A server that holds so many connections at most, whoever makes them. Where another one comes it gives up the one that
has rested longest, a stranger's before one of the page's; one whose request is being answered is never given up. So the
page is always served, and connections that say nothing cost little."""
import socket
import threading
from http.server import ThreadingHTTPServer
from typing import Any, Dict, Optional

# how many connections are held
MOST = 64
# how long a connection may say nothing, and how long one of the page may rest between two requests, in seconds
SILENT, RESTING = 5.0, 60.0


class Holding(ThreadingHTTPServer):
    """Holds connections, each with a thread of its own."""
    daemon_threads = True
    # a port that another server has is not shared with it
    allow_reuse_address = True
    request_queue_size = 256

    def __init__(self, *words: Any) -> None:
        self.most, self.silent, self.resting = MOST, SILENT, RESTING
        self.held: Dict[socket.socket, Optional[bool]] = {}   # whether it is known; none while it is answered
        self.room = threading.Condition()
        super().__init__(*words)

    def process_request(self, request: Any, client_address: Any) -> None:
        """Another connection: room is made for it, or it is closed where all others are being answered."""
        with self.room:
            while len(self.held) >= self.most and self.give_up():
                self.room.wait(0.5)
            full = len(self.held) >= self.most
            if not full:
                self.held[request] = False
        if full:
            super().shutdown_request(request)
        else:
            super().process_request(request, client_address)

    def give_up(self) -> bool:
        """Ends the connection that has rested longest, so that its thread lets it go; whether there is one."""
        resting = [one for known in (False, True) for one, of in self.held.items() if of is known]
        for one in resting[:1]:
            try:
                one.shutdown(socket.SHUT_RDWR)
            except OSError:
                pass   # the other side has gone before
        return bool(resting)

    def works(self, request: socket.socket) -> None:
        """A request of the page came, and is being answered."""
        with self.room:
            self.held[request] = None

    def rests(self, request: socket.socket, known: bool) -> None:
        """A request was answered: the connection rests, behind all that rested before."""
        with self.room:
            del self.held[request]
            self.held[request] = known

    def shutdown_request(self, request: Any) -> None:
        """A connection is closed, and there is room for another."""
        super().shutdown_request(request)
        with self.room:
            self.held.pop(request, None)
            self.room.notify_all()

    def handle_error(self, request: Any, client_address: Any) -> None:
        """A connection that was cut off is nothing to be told."""
