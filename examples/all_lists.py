#!/usr/bin/env python3
"""Goes through all valid schedules for few steps and slots, and compares the least number of forward steps with N + t(N, c).

It shares nothing with the crates: the moves are written out here from the rules of docs/ENDINGS.md, and the least is found
by a search over all configurations, so over all lists, those among them that copy between levels, keep what is never needed,
or step twice. Each book is given by the slots of its levels.

    examples/all_lists.py [STEPS]     up to so many steps, 5 where nothing is said
"""
import heapq
import sys


def beta(c, k):
    if k < 0:
        return 0
    if k == 0 or c == 0:
        return 1
    return beta(c - 1, k) + beta(c, k - 1)


def formula(steps, slots):
    """N + t(N, c), and None where two steps or more have no slot."""
    if steps <= 1:
        return steps
    if slots == 0:
        return None
    times = 0
    while beta(slots, times) < steps:
        times += 1
    return steps + times * steps - beta(slots + 1, times - 1)


def moves(steps, slots, at):
    """The configurations that an action leads to, each with the forward steps of the action."""
    work, held, tape, left, forward_ended = at
    for to in range(work + 1, left + 1):
        yield to - work, (to, held, tape, left, forward_ended)
        for k, images in enumerate(held):
            if len(images) < slots[k] and work not in images:
                with_it = held[:k] + (images | {work},) + held[k + 1:]
                yield to - work, (to, with_it, tape, left, forward_ended)
    if work + 1 == left and tape is None:
        yield 1, (left, held, work, left, forward_ended)
    for k, images in enumerate(held):
        for n in images:
            without = held[:k] + (images - {n},) + held[k + 1:]
            yield 0, (n, held, tape, left, forward_ended)
            yield 0, (n, without, tape, left, forward_ended)
            for j, others in enumerate(held):
                if j != k and len(others) < slots[j] and n not in others:
                    yield 0, (work, held[:j] + (others | {n},) + held[j + 1:], tape, left, forward_ended)
                    yield 0, (work, without[:j] + (others | {n},) + without[j + 1:], tape, left, forward_ended)
    if forward_ended and tape is not None:
        yield 0, (work, held, None, left - 1, forward_ended)
    if not forward_ended and work == steps:
        yield 0, (work, held, tape, left, True)


def least(steps, slots):
    """The least forward steps of all valid lists, and how many configurations were gone through."""
    start = (0, tuple(frozenset() for _ in slots), None, steps, False)
    best = {start: 0}
    # the counter keeps configurations from being compared
    queue = [(0, 0, start)]
    pushed = 0
    while queue:
        taken, _, at = heapq.heappop(queue)
        if taken > best[at]:
            continue
        # EndReverse may be done here, and nothing needs fewer steps
        if at[3] == 0 and at[4]:
            return taken, len(best)
        for more, to in moves(steps, slots, at):
            if taken + more < best.get(to, taken + more + 1):
                best[to] = taken + more
                pushed += 1
                heapq.heappush(queue, (taken + more, pushed, to))
    return None, len(best)


def main():
    most = int(sys.argv[1]) if len(sys.argv) > 1 else 5
    for steps in range(most + 1):
        for slots in [(0,), (1,), (2,), (3,), (1, 1), (0, 2), (2, 1), (1, 1, 1)]:
            found, gone_through = least(steps, slots)
            wanted = formula(steps, sum(slots))
            assert found == wanted, (steps, slots, found, wanted)
            print(f'{steps} steps, slots {slots}: {found} of {gone_through} configurations')


if __name__ == '__main__':
    main()
