"""What no index line has: accounts, owners, readers, restricted crates, reserved names, descriptions.
registry-export writes it into registry.json, and registry-import brings it in again."""
import json
from dataclasses import asdict, dataclass, field
from typing import Dict, List, Optional

from .faults import BadUse
from .names import CRATE_NAME, LOGIN, canonical

FORMAT = 1
LONGEST_NAME = 100


@dataclass
class Account:
    login: str
    name: Optional[str] = None
    enabled: bool = True


@dataclass
class CrateRecord:
    """What is told of one crate; descriptions are those of its versions."""

    owners: List[str] = field(default_factory=list)
    readers: List[str] = field(default_factory=list)
    restricted: bool = False
    descriptions: Dict[str, str] = field(default_factory=dict)


@dataclass
class Records:
    """`index` is the address by which cargo knows the registry's index."""

    index: Optional[str] = None
    accounts: List[Account] = field(default_factory=list)
    reserved: List[str] = field(default_factory=list)
    crates: Dict[str, CrateRecord] = field(default_factory=dict)

    def __post_init__(self):
        self.by_crate = {canonical(name): record for name, record in self.crates.items()}

    def of(self, name):
        return self.by_crate.get(canonical(name)) or CrateRecord()

    def to_json(self):
        return json.dumps({"format": FORMAT, **asdict(self)}, indent=1, ensure_ascii=False) + "\n"


def ask_that(holds, what):
    if not holds:
        raise ValueError(what)


def are_logins(values):
    return isinstance(values, list) and all(isinstance(value, str) and LOGIN.fullmatch(value) for value in values)


def is_account_name(name):
    return name is None or (
        isinstance(name, str) and 1 <= len(name) <= LONGEST_NAME and all(" " <= letter <= "~" for letter in name)
    )


def account_from(found):
    account = Account(**found)
    ask_that(are_logins([account.login]), f"a login {account.login!r}")
    ask_that(is_account_name(account.name), f"the name of {account.login}")
    ask_that(isinstance(account.enabled, bool), f"whether {account.login} is enabled")
    return account


def crate_from(name, found):
    ask_that(CRATE_NAME.fullmatch(name), f"a crate {name!r}")
    record = CrateRecord(**found)
    ask_that(are_logins(record.owners) and are_logins(record.readers), f"the logins of {name}")
    ask_that(isinstance(record.restricted, bool), f"whether {name} is restricted")
    described = isinstance(record.descriptions, dict)
    ask_that(described and all(isinstance(text, str) for text in record.descriptions.values()), f"descriptions of {name}")
    return record


def records_from(found):
    ask_that(isinstance(found, dict) and found.pop("format", None) == FORMAT, f"a format other than {FORMAT}")
    records = Records(
        index=found.get("index"),
        accounts=[account_from(account) for account in found.get("accounts", [])],
        reserved=found.get("reserved", []),
        crates={name: crate_from(name, record) for name, record in found.get("crates", {}).items()},
    )
    ask_that(records.index is None or isinstance(records.index, str), "an index")
    ask_that(all(isinstance(name, str) and CRATE_NAME.fullmatch(name) for name in records.reserved), "reserved names")
    return records


def read_records(path):
    try:
        return records_from(json.loads(path.read_bytes()))
    except OSError as fault:
        raise BadUse(f"can't read {path}: {fault.strerror}") from None
    except (ValueError, TypeError, AttributeError, RecursionError) as fault:
        raise BadUse(f"{path} is not what registry-export writes: {fault}") from None
