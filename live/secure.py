#!/usr/bin/python3
"""An end by Qpid Proton that wants a SASL layer, for live/run: secure.py connect|listen PORT. It says nothing else."""
import sys

from proton.handlers import MessagingHandler
from proton.reactor import Container


class Secure(MessagingHandler):
    def on_start(self, event):
        side, port = sys.argv[1:]
        where = f"127.0.0.1:{port}"
        if side == "listen":
            self.acceptor = event.container.listen(where)
        else:
            connection = event.container.connect(where, user="u", password="p", allow_insecure_mechs=True, reconnect=False)
            event.container.create_sender(connection, "q")

    def on_connection_bound(self, event):
        if sys.argv[1] == "listen":
            event.transport.require_auth(True)


Container(Secure()).run()
