"""What can go wrong: with the arguments, with one crate alone, or with the whole run."""


class BadUse(Exception):
    """The arguments, or a file that they name, are not what they should be: exit status 2."""


class Fault(Exception):
    """Nothing more can be done, since a file, the network or the registry failed: exit status 3."""


class Left(Exception):
    """One version, or one crate, is not brought; all others are."""
