#!/usr/bin/env python3
"""A loop of self-play: many games at once, and what a network learns from. It needs numpy."""
import numpy as np
import vintsaky

COUNT, SIZE, EARLIER = 64, 9, 3
rng = np.random.default_rng()
games = vintsaky.Games(COUNT, SIZE, komi=7, limit=300)
planes = np.zeros((COUNT, games.planes(EARLIER), SIZE, SIZE), np.float32)
masks = np.zeros((COUNT, SIZE * SIZE + 1), np.float32)  # one for each point, and one for a pass
over, scores = np.zeros(COUNT, np.uint8), np.zeros(COUNT, np.float32)
MAPS = [np.array(vintsaky.symmetry_map(SIZE, symmetry)) for symmetry in range(8)]


def policies_of(planes, masks):
    """Your network: the probability of each move, 0 where its mask is 0. Here all are equal."""
    return masks / masks.sum(axis=1, keepdims=True)


def turned(planes, policy, symmetry):
    """A position and its policy, both turned by a symmetry. The pass stays last."""
    places = MAPS[symmetry]
    planes_turned = planes.reshape(-1, SIZE * SIZE)[:, places].reshape(planes.shape)
    return planes_turned, np.append(policy[places], policy[-1])


games.planes_into(planes, EARLIER)
games.masks_into(masks)
played = [[] for _ in range(COUNT)]  # for each game: whose turn, planes and policy of each move
# planes, policy, and 1 if the side that moved leads at the end, -1 if the other leads, else 0
learned = []
for _ in range(400):
    turns, policies = games.turns, policies_of(planes, masks)
    moves = [rng.choice(len(policy), p=policy / policy.sum(dtype=float)) for policy in policies]
    for number in range(COUNT):
        played[number].append((turns[number], planes[number].copy(), policies[number]))
    if games.step(moves, over=over, scores=scores, planes=planes, earlier=EARLIER, masks=masks):
        raise ValueError("a move was rejected")
    for number in np.flatnonzero(over):
        lead = np.sign(scores[number])
        for turn, seen, policy in played[number]:
            outcome = lead if turn == vintsaky.BLACK else -lead
            learned.append((*turned(seen, policy, rng.integers(8)), outcome))
        played[number] = []
print(len(learned) > 0)
