#!/usr/bin/python3
"""One end by Qpid Proton, for live/run: peer.py send|receive listen|connect PORT COUNT SIZE OUTCOME [--settled] [--labelled] [--late] [--idle N] [--small]
[--drain].

It sends or takes COUNT messages of SIZE octets, tells the outcome (accept, release, reject, modify) of each that it takes, and
prints one line: how many it had, or was told to be accepted. With --labelled its messages are durable and have properties, and
those that it takes count where they have the same. With --late it sends, or gives credit, after three seconds. With --idle it wants to hear something
within N seconds. With --small it takes no frame of more than 512 octets. With --drain it drains as one that takes, and prints how many messages
it had when all credit was used up or given up.
"""
import sys

from proton import Delivery, Message
from proton.handlers import MessagingHandler
from proton.reactor import AtLeastOnce, AtMostOnce, Container

LABELS = {"id": "m", "subject": "s", "correlation_id": "c", "reply_to": "r", "content_type": "text/plain", "durable": True}
OUTCOMES = {"accept": Delivery.ACCEPTED, "release": Delivery.RELEASED, "reject": Delivery.REJECTED, "modify": Delivery.MODIFIED}


class End(MessagingHandler):
    def __init__(self, words):
        super().__init__(auto_accept=False, prefetch=0)
        self.role, self.side, self.port, count, size, self.outcome = words[:6]
        self.count, self.size, self.is_settled = int(count), int(size), "--settled" in words
        self.is_labelled, self.is_late, self.is_small = "--labelled" in words, "--late" in words, "--small" in words
        self.is_draining = "--drain" in words
        self.idle = float(words[words.index("--idle") + 1]) if "--idle" in words else None
        self.begun = self.done = 0
        self.drained = None
        self.acceptor = None

    def on_start(self, event):
        where = f"127.0.0.1:{self.port}"
        if self.side == "listen":
            self.acceptor = event.container.listen(where)
            return
        connection = event.container.connect(where, sasl_enabled=False, reconnect=False)
        how = AtMostOnce() if self.is_settled else AtLeastOnce()
        if self.role == "send":
            event.container.create_sender(connection, "q", options=how)
        else:
            event.container.create_receiver(connection, "q", options=how)

    def on_connection_bound(self, event):
        if self.idle:
            event.transport.idle_timeout = self.idle
        if self.is_small:
            event.transport.max_frame_size = 512

    def on_link_opened(self, event):
        if event.link.is_receiver and self.is_draining:
            event.link.drain(10)
        elif event.link.is_receiver and self.is_late:
            self.late = event.link
            event.container.schedule(3, self)
        elif event.link.is_receiver:
            event.link.flow(10)

    def on_sendable(self, event):
        if self.is_late:
            self.is_late, self.late = False, event.sender
            event.container.schedule(3, self)
        else:
            self.send(event.sender)

    def on_timer_task(self, event):
        if self.role == "send":
            self.send(self.late)
        else:
            self.late.flow(10)

    def on_link_flow(self, event):
        if event.link.is_receiver and self.is_draining and not event.link.draining():
            self.drained = self.done
        if event.link.is_sender and event.link.drain_mode:
            self.send(event.link)
            event.link.drained()

    def send(self, sender):
        labels = LABELS | {"properties": {"n": 7}} if self.is_labelled else {}
        while sender.credit and self.begun < self.count:
            delivery = sender.send(Message(body=b"x" * self.size, **labels))
            if self.is_settled:
                delivery.settle()
            self.begun += 1

    def is_wanted(self, message):
        labels = LABELS if self.is_labelled else {}
        return len(bytes(message.body)) == self.size and all(getattr(message, name) == value for name, value in labels.items())

    def on_message(self, event):
        if not event.delivery.settled:
            event.delivery.update(OUTCOMES[self.outcome])
            event.delivery.settle()
        if self.is_wanted(event.message):
            self.done += 1
        if not self.is_draining:
            event.receiver.flow(1)
        if self.side == "connect" and self.done == self.count:
            event.connection.close()

    def on_accepted(self, event):
        self.done += 1
        if self.side == "connect" and self.done == self.count:
            event.connection.close()

    def on_connection_closing(self, event):
        if self.acceptor:
            self.acceptor.close()

    def on_disconnected(self, event):
        self.on_connection_closing(event)


end = End(sys.argv[1:])
Container(end).run()
print(end.drained if end.is_draining else end.begun if end.is_settled and end.role == "send" else end.done)
