"""The order in which versions are published."""
from .names import canonical
from .semver import Requirement, requirement_of


class Order:
    """Each version comes behind those before it of its crate, and behind the first version that
    fits for each of its dependencies, as far as no circle of dependencies is in the way."""

    def __init__(self, by_crate):
        self.by_crate = by_crate
        self.done = []
        self.met = set()

    def wanted(self, crate, place):
        """The versions that come before one: crates and their places."""
        if place > 0:
            yield crate, place - 1
        for dependency in self.by_crate[crate][place].dependencies:
            versions = self.by_crate.get(canonical(dependency.name), ())
            requirement = requirement_of(dependency.requirement) or Requirement(())
            for at, publication in enumerate(versions):
                if requirement.matches(publication.version):
                    yield canonical(dependency.name), at
                    break

    def visit(self, crate, place):
        """Publishes what a version wants, and then the version, without recursion."""
        waiting = [((crate, place), self.wanted(crate, place))]
        self.met.add((crate, place))
        while waiting:
            (crate, place), wanted = waiting[-1]
            following = next((each for each in wanted if each not in self.met), None)
            if following is None:
                waiting.pop()
                self.done.append(self.by_crate[crate][place])
            else:
                self.met.add(following)
                waiting.append((following, self.wanted(*following)))

    def all(self):
        for crate, publications in self.by_crate.items():
            for place in range(len(publications)):
                if (crate, place) not in self.met:
                    self.visit(crate, place)
        return self.done


def in_order(by_crate):
    """All publications, those of each crate in the order in which they are given."""
    return Order(by_crate).all()
