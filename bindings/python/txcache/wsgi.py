"""A page for each request of a web service: Flask, Django, or whatever else speaks WSGI (PEP 3333)."""

from typing import Any, Callable, Dict, Iterable, List, Optional, Tuple

from .cache import TxCache
from .errors import SnapshotLost

READING = frozenset(("GET", "HEAD"))  # the methods that change nothing, so that a page may be made for them, and made again
Environ = Dict[str, Any]
Application = Callable[[Environ, Callable[..., Any]], Iterable[bytes]]


class Pages:
    """An application in whose GET and HEAD requests a page of `cache` is open, at most `max_age` seconds old. It ends as the application returns its
    response: what a body streams after that opens a page of its own. A request that lost its snapshot before its response began is made
    again, also if the framework has made a response of the error."""

    def __init__(self, app: Application, cache: TxCache, max_age: float = 5.0):
        self.app, self.cache, self.max_age = app, cache, max_age

    def __call__(self, environ: Environ, start_response: Callable[..., Any]) -> Iterable[bytes]:
        if environ.get("REQUEST_METHOD") not in READING:
            return self.app(environ, start_response)
        before = dict(environ)
        response = _Response(start_response)
        body = self._made(environ, response, is_last=_has_body(environ))
        if body is None:
            self.cache._look_again()
            environ.clear()
            environ.update(before)
            response = _Response(start_response)
            body = self._made(environ, response, is_last=True)
        response.begin()
        return body

    def _made(self, environ: Environ, response: "_Response", is_last: bool) -> Optional[Iterable[bytes]]:
        """Makes a request. Returns its body; None if it lost its snapshot before its response began, and is not the last try."""
        try:
            with self.cache.read(self.max_age) as page:
                body = self.app(environ, response.start)
        except SnapshotLost:
            if is_last or response.has_begun:
                raise
            return None
        if page.lost is None or is_last or response.has_begun:
            return body
        if hasattr(body, "close"):
            body.close()
        return None


class _Response:
    """The beginning of a response, which is kept back until its page has ended."""

    def __init__(self, start_response: Callable[..., Any]):
        self._start_response = start_response
        self._head: Optional[Tuple[str, List[Tuple[str, str]], Any]] = None
        self._write: Optional[Callable[[bytes], Any]] = None
        self.has_begun = False

    def start(self, status: str, headers: List[Tuple[str, str]], exc_info: Any = None) -> Callable[[bytes], Any]:
        """The `start_response` of the application."""
        if self.has_begun:
            return self._started(status, headers, exc_info)
        if self._head is not None and exc_info is None:
            raise AssertionError("start_response was called before, and there is no exc_info")
        self._head = status, headers, exc_info
        return self.write

    def write(self, data: bytes) -> None:
        """Writes data that the application sends beside its body: from then on nothing is made again."""
        self.begin()
        if self._write is None:
            raise AssertionError("write was called before start_response")
        self._write(data)

    def begin(self) -> None:
        """Begins the response, if the application has started it; else it begins as soon as the body starts it."""
        if not self.has_begun:
            self.has_begun = True
            if self._head is not None:
                self._write = self._started(*self._head)

    def _started(self, status: str, headers: List[Tuple[str, str]], exc_info: Any) -> Callable[[bytes], Any]:
        return self._start_response(status, headers, exc_info) if exc_info else self._start_response(status, headers)


def _has_body(environ: Environ) -> bool:
    """Returns True if the request has a body, which can be read once."""
    return environ.get("CONTENT_LENGTH") not in (None, "", "0") or "HTTP_TRANSFER_ENCODING" in environ
