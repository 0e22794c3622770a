"""A socket for clients that know no subprocess: each connection becomes the input and output of the next command."""
import socket
import subprocess
import threading

from trial import SESSION_LIMIT, Broken


class Relay:
    """Serves one connection with each of some `Served`, in turn; `uri` names the socket."""

    def __init__(self, trial, *served):
        self.path = trial.path("socket")
        self.listener = socket.socket(socket.AF_UNIX)
        self.listener.bind(self.path)
        self.listener.listen()
        self.listener.settimeout(SESSION_LIMIT)
        self.served = served
        self.thread = threading.Thread(target=self.serve, daemon=True)
        self.thread.start()

    def uri(self, export=""):
        return f"nbd+unix:///{export}?socket={self.path}"

    def serve(self):
        for served in self.served:
            try:
                connection = self.listener.accept()[0]
            except OSError:
                return
            with connection:
                process = subprocess.Popen(served.words, stdin=connection, stdout=connection)
            process.wait()

    def ended(self):
        """How each session ended, once the last one has."""
        self.thread.join(SESSION_LIMIT)
        self.listener.close()
        if self.thread.is_alive():
            raise Broken("a client has left, and the program hasn't ended")
        return [served.ended() for served in self.served]
