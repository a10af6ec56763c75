"""The two fronts that stand before an SCGI server: `gvr serve --pass` and nginx's `scgi_pass`."""
import contextlib
import os
import pathlib
import shutil
import tempfile
from collections.abc import Iterator
from typing import Callable

from servers import Running, free_port, running

# Where gvr's table of a page speaks of nginx, it is Debian 12's.
HAS_NGINX = bool(shutil.which("nginx")) and os.path.exists("/etc/nginx/scgi_params")
CONNS = 1000000
POOL = 1024
# A front in front of the port that it is given, which gives what is slower than so many milliseconds up.
Front = Callable[[int, int], "contextlib.AbstractContextManager[Running]"]
NGINX = """
daemon off; USER worker_processes 1; pid PLACE/pid; error_log PLACE/errors;
events { worker_connections 8192; }
http {
  access_log off; keepalive_requests 100000000; client_max_body_size 2m; client_body_buffer_size 128k;
  large_client_header_buffers 8 16k; client_body_temp_path PLACE/body; proxy_temp_path PLACE/proxy;
  fastcgi_temp_path PLACE/fastcgi; uwsgi_temp_path PLACE/uwsgi; scgi_temp_path PLACE/scgi; scgi_buffers 16 16k;
  server {
    listen 127.0.0.1:PORT backlog=4096;
    location / {
      include /etc/nginx/scgi_params;
      scgi_param PATH_INFO $document_uri; scgi_param SCRIPT_NAME "";
      scgi_connect_timeout PATIENCEms; scgi_send_timeout PATIENCEms; scgi_read_timeout PATIENCEms;
      scgi_pass 127.0.0.1:BEHIND;
    }
  }
}
"""


def gvr(program: str) -> Front:
    """`gvr serve --pass`, by this program."""
    def front(behind: int, patience: int = 60000) -> "contextlib.AbstractContextManager[Running]":
        port = free_port()
        words = [program, "serve", "--port", str(port), "--conns", str(CONNS), "--pool", str(POOL)]
        return running([*words, "--pass", str(behind), "--patience", str(patience)], port)
    return front


@contextlib.contextmanager
def nginx(behind: int, patience: int = 60000) -> Iterator[Running]:
    """nginx with one worker, and no more logs than gvr has."""
    port = free_port()
    text = NGINX.replace("USER", "user root;" if os.getuid() == 0 else "").replace("PATIENCE", str(patience))
    with tempfile.TemporaryDirectory() as place:
        file = pathlib.Path(place) / "conf"
        file.write_text(text.replace("PORT", str(port)).replace("BEHIND", str(behind)).replace("PLACE", place))
        with running(["nginx", "-p", place, "-e", f"{place}/errors", "-c", str(file)], port) as server:
            yield server


def fronts(program: str) -> dict[str, Front]:
    """Those that are here, by name; gvr's first."""
    return {"gvr": gvr(program), **({"nginx": nginx} if HAS_NGINX else {})}
