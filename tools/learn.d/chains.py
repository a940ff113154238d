"""Chains: in which order names come, by samples of them. A chain is some names of its first link, then some of its second, and so on.

Names that follow one another both ways are one link (Bex, Neven, Schwentick, Tuyls: Inference of Concise DTDs from XML Data, 2006). So
are names of one sort that have a neighbour in common and of which neither leads to the other, so that no sample has both. Each sample goes
through the links in their order, with all its names of one link together.
"""

from collections import defaultdict
from itertools import combinations


def followers(samples):
    """The names, in the order in which they are first met, each with those that stand right behind it."""
    after = {name: set() for sample in samples for name in sample}
    for sample in samples:
        for name, other in zip(sample, sample[1:]):
            after[name].add(other)
    return after


def reached(after):
    """The names that each one leads to, over any number of steps."""
    reach = {}
    for name in after:
        seen, left = set(), list(after[name])
        while left:
            other = left.pop()
            if other not in seen:
                seen.add(other)
                left += after[other]
        reach[name] = seen
    return reach


def links_of(reach):
    """Each link as a tuple of names."""
    links = {}
    for name in reach:
        link = tuple(other for other in reach if other == name or name in reach[other] and other in reach[name])
        links[link] = None
    return list(links)


def neighbours(after):
    """For each name, what stands right behind it and right before it."""
    near = defaultdict(set)
    for name, others in after.items():
        for other in others:
            near[name].add((other, "behind"))
            near[other].add((name, "before"))
    return near


def may_join(link, other, reach, sort_of):
    """Whether they are of one sort, and neither leads to the other: then no sample has both."""
    sorts = {sort_of(name) for name in (*link, *other)}
    return len(sorts) == 1 and link[0] not in reach[other[0]] and other[0] not in reach[link[0]]


def alternatives(after, sort_of):
    """Two links that are alternatives to each other, those that have the most neighbours in common; or none."""
    reach, near = reached(after), neighbours(after)
    around = {link: set().union(*(near[name] for name in link)) for link in links_of(reach)}
    pairs = [(len(around[link] & around[other]), link, other) for link, other in combinations(around, 2)
             if around[link] & around[other] and may_join(link, other, reach, sort_of)]
    return max(pairs, key=lambda pair: pair[0])[1:] if pairs else None


def in_order(links, after):
    """Links so that none leads to one before it; else as they were first met."""
    left, order = list(links), []
    while left:
        blocked = {name for link in left for member in link for name in after[member] if name not in link}
        first = next(link for link in left if not blocked.intersection(link))
        order.append(first)
        left.remove(first)
    return order


def chain(samples, sort_of):
    """The links of a chain that takes all samples, in order. A name's sort says which others may be its alternatives."""
    after = followers(samples)
    pair = alternatives(after, sort_of)
    while pair:
        link, other = pair
        after[link[0]].add(other[0])
        after[other[0]].add(link[0])
        pair = alternatives(after, sort_of)
    return in_order(links_of(reached(after)), after)


def turns(samples):
    """How the names of one link come in turns: what each sample begins with, and what then comes again and again. None if they don't."""
    longest = max(samples, key=len)
    period = next((at for at in range(1, len(longest)) if longest[at] == longest[0]), len(longest))
    pattern = longest[:period]
    rests = {len(sample) % period for sample in samples if sample}
    if len(rests) != 1 or any(name != pattern[at % period] for sample in samples for at, name in enumerate(sample)):
        return None
    rest = rests.pop()
    return pattern[:rest], pattern[rest:] + pattern[:rest]
