"""Who owns the crates that come in: by a map of crates, by the registry that they come from, or one
login for all."""
import json
from dataclasses import dataclass, field
from typing import Callable, Dict, List, Optional, Tuple

from . import web
from .faults import BadUse, Fault, Left
from .names import LOGIN, covers
from .texts import lines_of

NOBODY = "-"


def check_login(login, where):
    if not LOGIN.fullmatch(login):
        raise BadUse(f"{where}: {login} is no login (a to z, 0 to 9, - and _, a letter first, 32 at most)")
    return login


def read_owners(path):
    """A map of crates: a name or a prefix and *, then the logins of the owners; the first line that
    covers a crate counts."""
    found = []
    for number, (pattern, *logins) in lines_of(path):
        if not logins:
            raise BadUse(f"line {number} of {path} names no login")
        found.append((pattern, [check_login(login, f"line {number} of {path}") for login in logins]))
    return found


def read_logins(path):
    """A map of logins: that of the source, then that of here, or - for nobody."""
    found = {}
    for number, words in lines_of(path):
        if len(words) != 2:
            raise BadUse(f"line {number} of {path} is not a login there and a login here")
        found[words[0]] = words[1] if words[1] == NOBODY else check_login(words[1], f"line {number} of {path}")
    return found


class ApiOwners:
    """The owners that the source's own API tells (Registry Web API, Owners: List)."""

    def __init__(self, api, token):
        self.api = api.rstrip("/")
        self.token = token

    def __call__(self, name):
        url = f"{self.api}/api/v1/crates/{name}/owners"
        try:
            reply = web.get(url, self.token)
        except web.NoAnswer as fault:
            raise Fault(str(fault)) from None
        if reply.status != 200:
            raise Left(f"its owners are not known: {url} is answered with status {reply.status}")
        try:
            return [str(user["login"]) for user in json.loads(reply.body)["users"]]
        except (ValueError, KeyError, TypeError):
            raise Left(f"its owners are not known: {url} has no list of them") from None


@dataclass
class Owners:
    """`map` is by crate; `source` tells the owners there, whose logins `logins` turns into those of here."""

    map: List[Tuple[str, List[str]]] = field(default_factory=list)
    source: Optional[Callable[[str], List[str]]] = None
    logins: Dict[str, str] = field(default_factory=dict)
    default: Optional[str] = None

    def here(self, login):
        """The login here of one there, or None for nobody."""
        login = self.logins.get(login, login)
        return None if login == NOBODY else login

    def of(self, name):
        """The owners of a crate, and the logins there that have none here."""
        for pattern, logins in self.map:
            if covers(pattern, name):
                return list(dict.fromkeys(logins)), []
        here, unknown = [], []
        for login in self.source(name) if self.source else []:
            mapped = self.here(login)
            if mapped is not None and not LOGIN.fullmatch(mapped):
                unknown.append(login)
            elif mapped is not None and mapped not in here:
                here.append(mapped)
        return here or ([self.default] if self.default else []), unknown
