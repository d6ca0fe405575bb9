"""Logs that carry edits from replica to replica: a stream of a Redis server, and a table of a PostgreSQL server."""
import select
from typing import NamedTuple, Protocol

import psycopg2
import redis

MOST_ENTRIES = 1000
SECONDS_TO_ANSWER = 5


class LogDown(Exception):
    """The server did not answer. What was to be appended may be in the log or not, so it is to be appended again."""


class Entry(NamedTuple):
    """An edit text, and the place behind it, from which to follow on."""

    place: str
    lines: bytes


class Log(Protocol):
    """A list of entries that only grows. Nothing is asked of it but that it keeps what it took: not who comes first, nor how often."""

    def append(self, lines: bytes) -> None:
        """Returns once the entry is kept; raises LogDown where that is not known."""

    def follow(self, place: str, seconds: float) -> list[Entry]:
        """Some entries behind the place, in order; where there is none yet, waits so long for one. The place before all is empty."""


class RedisLog:
    """A stream. The server has to sync each entry before it answers: `appendonly yes` and `appendfsync always`."""

    def __init__(self, address: str, stream: str = "grove"):
        self.stream = stream
        self.server = redis.Redis.from_url(address, socket_timeout=SECONDS_TO_ANSWER)

    def append(self, lines: bytes) -> None:
        self._ask(self.server.xadd, self.stream, {"lines": lines})

    def follow(self, place: str, seconds: float) -> list[Entry]:
        milliseconds = max(1, min(int(seconds * 1000), SECONDS_TO_ANSWER * 500))
        answer = self._ask(self.server.xread, {self.stream: place or "0"}, count=MOST_ENTRIES, block=milliseconds)
        return [Entry(place.decode(), fields.get(b"lines", b"")) for _, entries in answer for place, fields in entries]

    @staticmethod
    def _ask(call, *words, **named):
        try:
            return call(*words, **named)
        except redis.RedisError as fault:
            raise LogDown(str(fault)) from fault


# The sequence gives places as rows are inserted, and rows are seen as their transactions end. Were two at it at once, a reader could see the
# later place first and never look for the earlier one. So one transaction at a time inserts.
APPEND = """
    select pg_advisory_xact_lock(hashtext('grove'));
    insert into grove_log (lines) values (%s);
    notify grove_log
"""
FOLLOW = "select place, lines from grove_log where place > %s order by place limit %s"
CREATE = """
    select pg_advisory_xact_lock(hashtext('grove'));
    create table if not exists grove_log (place bigserial primary key, lines bytea not null)
"""


class PostgresLog:
    """A table, with a notice to whoever waits for a row. The server syncs each transaction before it answers, as it does by default."""

    def __init__(self, address: str):
        self.address = address
        self.server = None

    def append(self, lines: bytes) -> None:
        self._ask(lambda cursor: cursor.execute(APPEND, (lines,)))

    def follow(self, place: str, seconds: float) -> list[Entry]:
        entries = self._behind(place)
        if not entries and self._is_noticed(seconds):
            entries = self._behind(place)
        return entries

    def _behind(self, place: str) -> list[Entry]:
        def rows(cursor):
            cursor.execute(FOLLOW, (int(place or 0), MOST_ENTRIES))
            return cursor.fetchall()

        return [Entry(str(number), bytes(lines)) for number, lines in self._ask(rows)]

    def _is_noticed(self, seconds: float) -> bool:
        """Waits for a notice. One that was lost with a connection does no harm: whoever follows comes back."""
        if self.server.notifies:
            self.server.notifies.clear()
            return True
        is_readable = bool(select.select([self.server], [], [], seconds)[0])
        if is_readable:
            self._ask(lambda _: self.server.poll())
            self.server.notifies.clear()
        return is_readable

    def _ask(self, question):
        try:
            if self.server is None:
                self.server = self._connect()
            with self.server.cursor() as cursor:
                return question(cursor)
        except psycopg2.Error as fault:
            if self.server is not None:
                self.server.close()
            self.server = None
            raise LogDown(str(fault).strip()) from fault

    def _connect(self):
        server = psycopg2.connect(self.address, connect_timeout=SECONDS_TO_ANSWER)
        server.autocommit = True
        with server.cursor() as cursor:
            cursor.execute(CREATE)
            cursor.execute("listen grove_log")
        return server


def log_at(address: str) -> Log:
    """The log at an address: redis://HOST, unix:///SOCKET or postgresql://HOST/DATABASE."""
    return PostgresLog(address) if address.startswith("postgres") else RedisLog(address)
