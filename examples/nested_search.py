#!/usr/bin/env python3
"""The least cost of a schedule in the nested class, by a search over all of them. It knows no tables.

    examples/nested_search.py N FORWARD REVERSE SLOTS,WRITE,READ [SLOTS,WRITE,READ ..]

The levels are given from the fastest on. It prints the least cost, or Never. A state of the search is what a schedule has
done so far: the state in work, the images that are held in the order of their storing, the steps that are left, whether the
tape is in use, whether EndForward was done, and what a Move still asks of the next action."""

import heapq
import sys


def moves(state, steps, forward, reverse, levels):
    work, images, left, taped, ended, due = state
    # due: a state that was moved while it was needed, and its level; the next action keeps it faster, or tapes it
    if not due:
        if not ended and work == steps:
            yield 0, (work, images, left, taped, True, ())
        if ended and taped:
            yield reverse, (work, images, left - 1, False, True, ())
        if images:
            (newest, level), older = images[-1], images[:-1]
            read = levels[level][2]
            yield read, (newest, images, left, taped, ended, ())
            yield read, (newest, older, left, taped, ended, (newest, level) if newest < left else ())
        for to in range(work + 1, left + 1):
            yield (to - work) * forward, (to, images, left, taped, ended, ())
    for to in range(work + 1, left + 1):
        for k, (slots, write, _) in enumerate(levels):
            if due and k >= due[1]:
                continue
            if sum(1 for image in images if image[1] == k) >= slots:
                continue
            if images and (images[-1][0] >= work or images[-1][1] < k):
                continue
            stored = images + ((work, k),)
            yield write + (to - work) * forward, (to, stored, left, taped, ended, ())
    if work + 1 == left and not taped:
        yield forward, (work + 1, images, left, True, ended, ())


def least(steps, forward, reverse, levels):
    start = (0, (), steps, False, False, ())
    best = {start: 0}
    queue = [(0, start)]
    while queue:
        cost, state = heapq.heappop(queue)
        if cost > best[state]:
            continue
        if state[4] and state[2] == 0 and not state[5]:
            return cost
        for more, after in moves(state, steps, forward, reverse, levels):
            if cost + more < best.get(after, cost + more + 1):
                best[after] = cost + more
                heapq.heappush(queue, (cost + more, after))
    return None


def main(words):
    steps, forward, reverse = (int(word) for word in words[:3])
    levels = [tuple(int(number) for number in word.split(",")) for word in words[3:]]
    cost = least(steps, forward, reverse, levels)
    print("Never" if cost is None else cost)


if __name__ == "__main__":
    main(sys.argv[1:])
