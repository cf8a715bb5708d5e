"""Requests by HTTP: to the registry that crates come from, and to one that serves."""
import http.client
import json
import ssl
import time
import urllib.error
import urllib.parse
import urllib.request

from .faults import BadUse, Fault

# Answers after which the same may work a moment later: of a proxy, mostly.
PASSING = {429, 500, 502, 503, 504}
PAUSES = (0.5, 1, 2, 4, 8, 15)
SECONDS = 120


def host_of(url):
    parts = urllib.parse.urlsplit(url)
    return parts.scheme, parts.netloc


class SafeRedirects(urllib.request.HTTPRedirectHandler):
    """Follows a redirect without the token where that leads to another host."""

    def redirect_request(self, request, response, code, message, headers, url):
        following = super().redirect_request(request, response, code, message, headers, url)
        if following is not None and host_of(url) != host_of(request.full_url):
            following.remove_header("Authorization")
        return following


OPENER = urllib.request.build_opener(SafeRedirects)


class Reply:
    """What is answered: a status, and a body."""

    def __init__(self, status, body):
        self.status = status
        self.body = body

    def words(self):
        """What a registry says of a refusal, or else the status."""
        try:
            return "; ".join(error["detail"] for error in json.loads(self.body)["errors"])
        except (ValueError, KeyError, TypeError):
            return f"it is answered with status {self.status}"


class NoAnswer(Exception):
    """A request that may have been done, or not: nothing came back."""


def answer_to(request):
    """What is answered, whatever its status is."""
    try:
        return OPENER.open(request, timeout=SECONDS)
    except urllib.error.HTTPError as refusal:
        return refusal


def request_to(method, url, token, body):
    """The token is the whole value of its field."""
    try:
        request = urllib.request.Request(url, data=body, method=method)
    except ValueError as fault:
        raise BadUse(f"{url} is no address: {fault}") from None
    if token is not None:
        request.add_header("Authorization", token)
    if body is not None:
        request.add_header("Content-Type", "application/octet-stream")
    return request


def ask(method, url, token=None, body=None):
    request = request_to(method, url, token, body)
    try:
        with answer_to(request) as answer:
            return Reply(answer.status, answer.read())
    except http.client.InvalidURL as fault:
        raise BadUse(f"{url} is no address: {fault}") from None
    except (OSError, http.client.HTTPException) as fault:
        reason = getattr(fault, "reason", None) or fault
        if isinstance(reason, ssl.SSLCertVerificationError):
            raise Fault(f"{url}: {reason.verify_message}: name its certificate by SSL_CERT_FILE") from None
        raise NoAnswer(f"{url}: {reason}") from None


def persist(method, url, token=None, body=None, is_done=lambda: False):
    """A request, which is tried again while the answer may be a passing one, unless it was done all
    the same."""
    for pause in PAUSES:
        try:
            reply = ask(method, url, token, body)
            if reply.status not in PASSING:
                return reply
        except NoAnswer:
            pass
        time.sleep(pause)
        if is_done():
            return Reply(200, b"")
    return ask(method, url, token, body)


def get(url, token=None):
    return persist("GET", url, token)


def ask_once(url, token=None):
    """The first request of a run: an address that is wrong is told at once."""
    return ask("GET", url, token)
