"""How a server serves, and what it refuses of that."""
import dataclasses
import ipaddress


@dataclasses.dataclass(frozen=True)
class Settings:
    """How a server serves. `threads` requests are answered at once in each of `processes` processes, or with
    `greenlets` so many greenlets of gevent in place of threads."""
    host: str = "127.0.0.1"
    # 0 takes a free one.
    port: int = 9000
    # The path of a Unix socket, in place of host and port.
    unix: str = ""
    threads: int = 16
    # If not 0: so many greenlets, in place of threads.
    greenlets: int = 0
    processes: int = 1
    # How many connections wait at the system.
    backlog: int = 1024
    # After how many seconds without a byte the other side is given up.
    timeout: float = 60.0
    # The front of the path that is SCRIPT_NAME.
    script_name: str = ""
    # SCGI has no key: whoever reaches the port may say that he is any user.
    may_be_remote: bool = False

    def check(self) -> None:
        """Raises ValueError, with a sentence, where no server can serve so."""
        for name, least in (("threads", 1), ("greenlets", 0), ("processes", 1), ("backlog", 1), ("port", 0)):
            if getattr(self, name) < least:
                raise ValueError("%s is below %d" % (name, least))
        if self.port > 65535:
            raise ValueError("port is above 65535")
        if not self.timeout > 0:
            raise ValueError("timeout is not above 0")
        if self.script_name and not self.script_name.startswith("/"):
            raise ValueError("script-name has no / at its front")
        if not self.unix and not self.may_be_remote and not is_loopback(self.host):
            raise ValueError("%s is no loopback address: SCGI has no key, so whoever reaches the port can say that he "
                             "is any user" % self.host)


def is_loopback(host: str) -> bool:
    """Whether only this machine reaches the address."""
    if host == "localhost":
        return True
    try:
        return ipaddress.ip_address(host).is_loopback
    except ValueError:
        return False
