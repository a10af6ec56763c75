"""What the bytes of an SCGI server come to, and how an answer is sent: a second opinion, which is written from
docs/BEHIND.md, docs/HTTP.md and RFC 3875 (section 6), apart from the program."""
import re
from typing import NamedTuple, Optional

from relay.rows import MOST_BODY, MOST_HEAD
from relay.scripted import ENDS, STAYS

# Fields that are the connection's (docs/HTTP.md, "500 Internal Server Error").
OF_THE_CONNECTION = {
    b"connection", b"keep-alive", b"proxy-authenticate", b"proxy-authorization", b"te", b"trailer",
    b"transfer-encoding", b"upgrade",
}
TOKEN = re.compile(rb"[!#$%&'*+.^_`|~0-9A-Za-z-]+")
STATUS = re.compile(rb"[2-9][0-9]{2} [^\x00-\x20\x7f](?:[^\x00-\x1f\x7f]*[^\x00-\x20\x7f])?")
CONTROL = re.compile(rb"[\x00-\x08\x0a-\x1f\x7f]")
LENGTH = re.compile(rb"[0-9]{1,19}")
Fields = tuple[tuple[bytes, bytes], ...]


class Reply(NamedTuple):
    """A reply: its status with the reason, its fields in order, its body."""
    status: bytes
    fields: Fields
    body: bytes


def fixed(status: bytes, body: bytes) -> Reply:
    """An answer of gvr's own."""
    return Reply(status, ((b"Content-Type", b"text/plain"), (b"Content-Length", b"%d" % len(body))), body)


BAD_GATEWAY = fixed(b"502 Bad Gateway", b"bad gateway\n")
TIMEOUT = fixed(b"504 Gateway Timeout", b"gateway timeout\n")


def has_body(status: bytes, is_for_head: bool) -> bool:
    """Whether a reply of this status has a body."""
    return not is_for_head and status[:3] not in (b"204", b"304")


def lengths(fields: Fields) -> list[bytes]:
    """The lengths that are stated."""
    return [value for name, value in fields if name.lower() == b"content-length"]


def can_be_sent(status: bytes, fields: Fields) -> bool:
    """Whether an answer may have this head."""
    stated = lengths(fields)
    return (bool(STATUS.fullmatch(status)) and len(stated) <= 1 and all(LENGTH.fullmatch(each) for each in stated)
            and not (stated and status[:3] == b"204")
            and all(TOKEN.fullmatch(name) and name.lower() not in OF_THE_CONNECTION for name, _ in fields)
            and not any(CONTROL.search(value) for _, value in fields))


def head_of(said: bytes) -> Optional[tuple[bytes, Fields]]:
    """The status and the fields of a head; nothing where it is none."""
    statuses: list[bytes] = []
    fields: list[tuple[bytes, bytes]] = []
    for line in said.split(b"\n"):
        name, colon, value = line.removesuffix(b"\r").partition(b":")
        if not colon and name:
            return None
        if name.lower() == b"status":
            statuses.append(value.lstrip(b" \t"))
        elif colon:
            fields.append((name, value.lstrip(b" \t")))
    if len(statuses) > 1 or not statuses and not fields:
        return None
    elsewhere = any(name.lower() == b"location" for name, _ in fields)
    status = statuses[0] if statuses else b"302 Found" if elsewhere else b"200 OK"
    return (status, tuple(fields)) if can_be_sent(status, tuple(fields)) else None


def read_reply(said: bytes, ending: str, is_for_head: bool) -> Reply:
    """What a server that says this and ends so gives as the reply."""
    cut_off = TIMEOUT if ending == STAYS else BAD_GATEWAY
    end = re.search(rb"(?:^|\n)\r?\n", said[:MOST_HEAD])
    if not end:
        return BAD_GATEWAY if len(said) >= MOST_HEAD else cut_off
    head, body = head_of(said[:end.end()]), said[end.end():]
    if not head:
        return BAD_GATEWAY
    status, fields = head
    if not has_body(status, is_for_head):
        return Reply(status, fields, b"")
    stated = lengths(fields)
    if (int(stated[0]) if stated else len(body)) > MOST_BODY:
        return BAD_GATEWAY
    if stated:
        return Reply(status, fields, body[:int(stated[0])]) if len(body) >= int(stated[0]) else cut_off
    return Reply(status, fields, body) if ending == ENDS else cut_off


def sent(reply: Reply, is_for_head: bool) -> bytes:
    """All bytes of the answer to a request of HTTP/1.1 that goes on."""
    is_open = not lengths(reply.fields) and reply.status[:3] not in (b"204", b"304")
    fields = [*reply.fields, *([(b"Transfer-Encoding", b"chunked")] if is_open else [])]
    head = b"HTTP/1.1 " + reply.status + b"\r\n" + b"".join(b"%s: %s\r\n" % field for field in fields) + b"\r\n"
    if not has_body(reply.status, is_for_head):
        return head
    chunk = b"%x\r\n%s\r\n" % (len(reply.body), reply.body) if reply.body else b""
    return head + (chunk + b"0\r\n\r\n" if is_open else reply.body)
