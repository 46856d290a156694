"""Where a window is served: an address of this machine alone, and what is known there of its
pages."""
import os
import secrets
import signal
import time
from http.server import BaseHTTPRequestHandler, ThreadingHTTPServer
from typing import Optional, Type

from .progress import Progress

WAITS = 3.0      # seconds after its last question that a page counts as one that waits
LONG_AGO = 1e9


class Address(ThreadingHTTPServer):
    """An address of this machine alone, which only who knows its token can use."""

    daemon_threads = True

    def __init__(
        self, port: int, handler: Type[BaseHTTPRequestHandler], token: Optional[str] = None
    ) -> None:
        super().__init__(("127.0.0.1", port), handler)
        self.token = token or secrets.token_urlsafe(16)
        self.progress = Progress()
        self.talks = 0            # pages that are connected
        self.awaited = -LONG_AGO  # when a page asked last how far the model is
        self.hosts = {f"{name}:{self.server_port}" for name in ("127.0.0.1", "localhost")}

    @property
    def is_ready(self) -> bool:
        """Whether there is something to look at."""
        raise NotImplementedError

    @property
    def is_awaited(self) -> bool:
        """Whether a page waits for the model."""
        return time.monotonic() - self.awaited < WAITS

    @property
    def policy(self) -> str:
        """What the page may load: nothing but what is here."""
        lines = " ".join(f"ws://{host}" for host in sorted(self.hosts))
        return (
            f"default-src 'self'; connect-src 'self' {lines}; img-src 'self' blob: data:; "
            "base-uri 'none'; form-action 'none'; frame-ancestors 'none'"
        )

    def cancel(self) -> None:
        """Ends the way to a model, as Ctrl-C does."""
        os.kill(os.getpid(), signal.SIGTERM)

    @property
    def address(self) -> str:
        return f"http://127.0.0.1:{self.server_port}/{self.token}/"
