/* The calls over many games: the part of each_call.c on them, which includes it. */

/* On 2x2 Black's A1 is refused to White, and on 9x9 White, whose turn it is after two handicap stones, passes. */
static void of_moves_by_number(vintsaky_game *games) {
    static const uint32_t first[] = {0, 81}, then[] = {0, 82};
    uint8_t causes[] = {9, 9, 9};
    IS(VINTSAKY_BLACK, vintsaky_game_turn(&games[0]));
    IS(VINTSAKY_WHITE, vintsaky_game_turn(&games[1]));
    IS(VINTSAKY_NO_ROOM, vintsaky_games_play(games, 2, first, 1, causes, 3));
    IS(VINTSAKY_DONE, vintsaky_games_play(games, 2, first, 2, causes, 3));
    IS(0, causes[0] | causes[1]);
    IS(VINTSAKY_DONE, vintsaky_games_play(games, 2, then, 2, causes, 3));
    IS(VINTSAKY_OCCUPIED, causes[0]);
    IS(VINTSAKY_OFF_BOARD, causes[1]);
    IS(9, causes[2]);
}

/* Then the one black stone is that of the other colour, and there was none a move earlier. White may play beside it, and pass. */
static void of_planes(vintsaky_game *game) {
    uint8_t bytes[17];
    float floats[9];
    size_t at;
    bytes[16] = 9, floats[5] = floats[8] = 9;
    IS(VINTSAKY_NO_ROOM, vintsaky_games_planes(game, 1, 1, bytes, 15));
    IS(VINTSAKY_DONE, vintsaky_games_planes(game, 1, 1, bytes, 17));
    for (at = 0; at < 16; at++) IS(at == 4, bytes[at]);
    IS(VINTSAKY_DONE, vintsaky_games_masks(game, 1, bytes, 17));
    for (at = 0; at < 5; at++) IS(at != 0, bytes[at]);
    IS(9, bytes[16]);
    IS(VINTSAKY_DONE, vintsaky_games_masks_f32(game, 1, floats, 5));
    for (at = 0; at < 5; at++) IS(at != 0, floats[at]);
    IS(9, floats[5]);
    IS(VINTSAKY_DONE, vintsaky_games_planes_f32(game, 1, 0, floats, 9));
    for (at = 0; at < 8; at++) IS(at == 4, floats[at]);
    IS(9, floats[8]);
}

/* Both have one move. All points are Black's, less a komi of half a point on 2x2; without the move nobody has a point there. */
static void of_restarts(vintsaky_game *games) {
    static const uint64_t seeds[] = {1, 2};
    uint8_t over[] = {9, 9};
    int32_t scores[] = {9, 9};
    IS(VINTSAKY_NO_ROOM, vintsaky_games_restart(games, 2, 1, over, 2, scores, 1));
    IS(VINTSAKY_DONE, vintsaky_games_restart(games, 2, 1, over, 2, scores, 2));
    IS(2, over[0]);
    IS(2, over[1]);
    IS(8 - 1, scores[0]);
    IS(162, scores[1]);
    IS(0, vintsaky_game_length(&games[0]) + vintsaky_game_length(&games[1]));
    IS(2, vintsaky_game_handicap(&games[1]));
    IS(VINTSAKY_DONE, vintsaky_games_restart(games, 2, 1, over, 2, scores, 2));
    IS(0, over[0] | over[1] | scores[0] | scores[1]);
    IS(VINTSAKY_DONE, vintsaky_games_rollouts(games, 2, seeds, 2, 0, scores, 2));
    IS(-1, scores[0]);
    IS(162, scores[1]);
}

static void of_many_games(void) {
    vintsaky_game games[2];
    if (!vintsaky_game_new(&games[0]) || !vintsaky_game_new(&games[1])) exit(2);
    IS(VINTSAKY_DONE, vintsaky_game_begin(&games[0], VINTSAKY_SIMPLE, 2, 1));
    IS(VINTSAKY_DONE, vintsaky_game_begin(&games[1], VINTSAKY_SIMPLE, 9, 0));
    IS(VINTSAKY_DONE, vintsaky_game_place_handicap(&games[1], 2));
    of_moves_by_number(games);
    of_planes(games);
    of_restarts(games);
    vintsaky_game_free(&games[0]);
    vintsaky_game_free(&games[1]);
}
