#!/usr/bin/python3
"""An end by Qpid Proton whose link is left and attached again, for live/run: again.py send|receive listen|connect PORT COUNT close|detach|part.

One that connects sends or takes COUNT messages on a link, leaves it, for good (close) or not (detach), attaches one of the same name in
the same session, and sends or takes COUNT more. One that listens lets its peer do so, or leaves the link itself (part) once it has a
message. Messages of a link that is not left for good are not settled by the one that takes them; all others are accepted. It prints one line:
how many messages it had in all, and of how many it was told, or told, that they are accepted.
"""
import sys

from proton import Delivery, Message
from proton.handlers import MessagingHandler
from proton.reactor import AtLeastOnce, Container

LINK = "l"


class End(MessagingHandler):
    def __init__(self, role, side, port, count, how):
        super().__init__(auto_accept=False, auto_settle=False, prefetch=0)
        self.role, self.side, self.port, self.count, self.how = role, side, port, int(count), how
        self.links = self.had = self.on_this = self.accepted = 0
        self.acceptor = self.connection = None

    def on_start(self, event):
        where = f"127.0.0.1:{self.port}"
        if self.side == "listen":
            self.acceptor = event.container.listen(where)
            return
        self.connection = event.container.connect(where, sasl_enabled=False, reconnect=False)
        self.attach(event.container)

    def attach(self, container):
        create = container.create_sender if self.role == "send" else container.create_receiver
        create(self.connection, "q", name=LINK, options=AtLeastOnce())

    def on_link_opened(self, event):
        self.links, self.on_this = self.links + 1, 0
        if event.link.is_receiver:
            event.link.flow(self.count)

    def on_sendable(self, event):
        while event.sender.credit and self.on_this < self.count:
            event.sender.send(Message(body=b"x"))
            self.had, self.on_this = self.had + 1, self.on_this + 1

    def is_settling(self):
        return self.how == "close" or self.links == 2

    def on_message(self, event):
        self.had, self.on_this = self.had + 1, self.on_this + 1
        if self.is_settling():
            event.delivery.update(Delivery.ACCEPTED)
            event.delivery.settle()
            self.accepted += 1
        self.go_on(event)

    def on_accepted(self, event):
        self.accepted += 1
        event.delivery.settle()
        if self.accepted == self.count * self.links:
            self.go_on(event)

    def go_on(self, event):
        """Once all of this link are done with it is left, and behind the second one the connection is closed."""
        if self.on_this < self.count:
            return
        if self.side == "connect" and self.links == 2:
            event.connection.close()
        elif self.side == "connect" and self.how == "close":
            event.link.close()
        elif self.side == "connect" or self.how == "part" and self.links == 1:
            event.link.detach()

    def on_link_remote_detach(self, event):
        """The peer has left the link, or answers that we have."""
        event.link.detach()
        event.link.free()
        self.attach_again(event.container)

    def on_link_closed(self, event):
        self.attach_again(event.container)

    def attach_again(self, container):
        if self.side == "connect" and self.links == 1:
            self.attach(container)

    def on_connection_closing(self, event):
        if self.acceptor:
            self.acceptor.close()


end = End(*sys.argv[1:])
Container(end).run()
print(end.had, end.accepted)
