"""What the adapter, desks and clocks of a venue share: connections to its broker, and messages on their way through it."""
import collections
import hashlib
import json
import os
import random
import re
import ssl
import struct
import sys
import time
from contextlib import suppress

try:
    import pika
except ImportError:
    pika = None

MOST_BYTES = 32_768  # of a message, which the broker sees to
PATIENCE, MOST_PATIENCE = 5, 60  # how many seconds a desk or a clock waits for an answer before it connects anew; more each time


class Settings:
    """The settings.json that tools/venue/broker wrote."""

    def __init__(self, place):
        with open(place, encoding="utf-8") as file:
            told = json.load(file)
        self.nodes, self.port, self.log, self.keys = told["nodes"], told["port"], told["log"], os.path.join(os.path.dirname(place), told["keys"])
        if not pika:
            sys.exit(f"{os.path.basename(sys.argv[0])}: there is no pika for {sys.executable}: apt install python3-pika")

    def parameters(self, user, at):
        """How a user connects to a node; those after the last one are the first again."""
        node, tls = self.nodes[at % len(self.nodes)], ssl.create_default_context(cafile=f"{self.keys}/ca.pem")
        tls.load_cert_chain(f"{self.keys}/{user}.pem", f"{self.keys}/{user}.key")
        return pika.ConnectionParameters(node, self.port, self.log, heartbeat=10, blocked_connection_timeout=20, socket_timeout=5, stack_timeout=10,
                                         credentials=pika.credentials.ExternalCredentials(), ssl_options=pika.SSLOptions(tls, node))


def envelope(key, number, body):
    """A message as a line of `flow host`. A number that isn't one is 0, which no line has, and a body that isn't UTF-8 is no command."""
    number = int(number) if isinstance(number, str) and re.fullmatch("[1-9][0-9]{0,17}", number) else 0
    try:
        text = body.decode("utf-8")
    except UnicodeDecodeError:
        text = "\0"
    return json.dumps({"from": int(key.removeprefix("from.")), "line": text, "id": number}).encode("ascii") + b"\n"


def pieces_of(number, text):
    """A message, in as many pieces as it takes, each with its name; one that fits is whole, and has none."""
    if len(text) <= MOST_BYTES:
        return [(text, None)]
    cut = [text[at:at + MOST_BYTES] for at in range(0, len(text), MOST_BYTES)]
    return [(piece, f"{number}.{at}.{len(cut)}") for at, piece in enumerate(cut, 1)]


class Pieces:
    """Puts messages together, of which several adapters may have told the pieces."""

    def __init__(self):
        self.held = {}

    def whole(self, method, properties, body):
        """A whole message, or None while pieces of it are lacking."""
        if not properties.message_id:
            return body
        number, at, count = map(int, properties.message_id.split("."))
        found = self.held.setdefault((method.routing_key, number), {})
        found[at] = body
        if len(found) < count:
            return None
        del self.held[method.routing_key, number]
        return b"".join(found[at] for at in range(1, count + 1))


def checksum(answer):
    return hashlib.sha256(answer).hexdigest().encode()


class Told:
    """The note of how many answers were told, and of the checksum of the last one."""

    def __init__(self, place):
        self.file = os.open(place, os.O_RDWR | os.O_CREAT, 0o600)
        noted = os.pread(self.file, 100, 0).split()
        self.count, self.mark = (int(noted[0]), noted[1]) if len(noted) == 2 and noted[0].isdigit() else (0, b"")

    def is_last(self, answer):
        return checksum(answer) == self.mark

    def add(self, answers):
        self.count, self.mark = self.count + len(answers), checksum(answers[-1])
        os.pwrite(self.file, b"%020d %s\n" % (self.count, self.mark), 0)

    def forget(self):
        os.ftruncate(self.file, 0)


class MarketLink:
    """The connection of a market's adapter to any node. Calls `begin` once it is ready, `delivered` with each message of the log from the first
    on, `confirmed` with the answers that the broker has, in their order, and `end` on trouble."""

    def __init__(self, settings, most_unread):
        self.most_unread, self.first, self.sent, self.settled_tags = most_unread, 1, collections.deque(), set()
        self.heard = self.moved = time.monotonic()
        self.connection = pika.SelectConnection(settings.parameters("market", random.randrange(99)), self.opened, self.lost, self.lost)

    def opened(self, connection):
        connection.channel(on_open_callback=self.ready)

    def ready(self, channel):
        self.channel = channel
        channel.add_on_close_callback(self.lost)
        channel.add_on_cancel_callback(lambda why: self.lost(None, why))
        channel.confirm_delivery(self.settled)
        channel.basic_qos(prefetch_count=self.most_unread)
        channel.basic_consume("log", self.delivered, arguments={"x-stream-offset": 0})
        self.begin()

    def lost(self, _, why):
        self.end(" ".join(f"the broker: {why!r}"[:300].split()))

    def soon(self, call):
        """For other threads: has something done by the thread of the connection."""
        self.connection.ioloop.add_callback_threadsafe(call)

    def publish(self, answers):
        if not self.sent:
            self.heard = self.moved = time.monotonic()
        for answer in answers:
            message = json.loads(answer)
            for piece, name in pieces_of(message["number"], answer):
                self.sent.append(None)
                self.channel.basic_publish("answers", f"to.{message['to']}", piece, pika.BasicProperties(message_id=name, delivery_mode=2))
            self.sent[-1] = answer

    def settled(self, frame):
        """Finds the answers that the broker has, up to the first that it may not have."""
        if isinstance(frame.method, pika.spec.Basic.Nack):
            self.end("the broker refused an answer")
        tag, answers, self.heard = frame.method.delivery_tag, [], time.monotonic()
        self.settled_tags.update(range(self.first, tag + 1) if frame.method.multiple else [tag])
        while self.first in self.settled_tags:
            self.settled_tags.remove(self.first)
            self.first, answer, self.moved = self.first + 1, self.sent.popleft(), self.heard
            answers += [answer] if answer else []
        if answers:
            self.confirmed(answers)


class DeskLink:
    """The connection of a desk, or of the operator (number 0), to any node. `out` has the lines that are to be sent, by their numbers. Calls
    `came` with each message of its stream from `place` on, or None while pieces of it are lacking, and with its offset. That sets `moved` and
    `patience` at each sign that lines are answered: without one for so long, it connects to the next node."""

    def __init__(self, settings, number, node, place):
        self.settings, self.number, self.user = Settings(settings), number, f"desk{number}" if number else "operator"
        self.node, self.place, self.connection, self.trouble, self.pieces, self.out = node, place, None, None, Pieces(), {}
        self.patience, self.heard, self.moved, self.live = PATIENCE, time.monotonic(), time.monotonic(), float("inf")

    def connect(self):
        self.node += 1
        self.connection = pika.BlockingConnection(self.settings.parameters(self.user, self.node))
        self.channel, self.tag, self.pieces = self.read(self.place, 200, self.delivered), None, Pieces()
        self.heard = self.moved = time.monotonic()

    def read(self, place, most_unread, delivered):
        """Reads the stream on a channel of its own."""
        channel = self.connection.channel()
        channel.basic_qos(prefetch_count=most_unread)
        channel.basic_consume(f"answers.{self.number or 'operator'}", delivered, arguments={"x-stream-offset": place})
        return channel

    def find_end(self):
        """Sets `live` to the offset of the next message that is told; more aren't read on this channel, since it isn't acknowledged."""
        self.live = float("inf")
        self.read("next", 1, lambda _, method, properties, body: setattr(self, "live", properties.headers["x-stream-offset"]))

    def leave(self, why):
        with suppress(Exception):
            self.connection.close()
        self.connection, self.trouble, self.patience = None, why, min(2 * self.patience, MOST_PATIENCE)

    def delivered(self, _, method, properties, body):
        self.heard, self.tag = time.monotonic(), method.delivery_tag
        self.came(self.pieces.whole(method, properties, body), properties.headers["x-stream-offset"])

    def hand_over(self):
        lines, self.out = sorted(self.out.items()), {}
        for number, text in lines:
            named = pika.BasicProperties(message_id=str(number), delivery_mode=2)
            self.channel.basic_publish("commands", f"from.{self.number}", text.encode(), named)

    def turn(self, seconds):
        """Sends `out`, and takes what comes, once there is something or so many seconds have passed. After trouble the next turn connects anew."""
        try:
            if not self.connection:
                self.connect()
            if time.monotonic() > min(self.moved + self.patience, self.heard + MOST_PATIENCE):
                raise OSError("no answer came")
            self.hand_over()
            self.connection.process_data_events(seconds)
            self.tag = self.tag and self.channel.basic_ack(self.tag, multiple=True)
        except TROUBLE as why:
            self.leave(why)
            time.sleep(0.2)


def first_values(encoded, at):
    """Headers, of which the first with a name counts: that is the one that the broker has set, and a sender may add others. A value on which
    pika fails, as a time beyond its range or tables within tables, is passed over; else one message would end each adapter for ever."""
    end, found = at + 4 + struct.unpack_from(">I", encoded, at)[0], {}
    at += 4
    while at < end:
        name, at = pika.data.decode_short_string(encoded, at)
        try:
            value, at = pika.data.decode_value(encoded, at)
        except Exception:
            value, at = None, at + 1 + (WIDTHS.get(encoded[at:at + 1]) or 4 + struct.unpack_from(">I", encoded, at + 1)[0])
        found.setdefault(name, value)
    return found, end


# Of the values that have no length before them.
WIDTHS = {b"T": 8, b"d": 8, b"f": 4, b"D": 5}
TROUBLE = (OSError,)
if pika:
    pika.data.decode_table = first_values
    TROUBLE = (OSError, pika.exceptions.AMQPError, pika.adapters.utils.connection_workflow.AMQPConnectorException)
