/* Checks every function of the archive through the header: accepted answers, every refused answer that it can give, and every byte
 * that it was lent.
 *
 *     check POSITIONS PAGES PASSING SETTLED [exact | few]
 *
 * A file of FEN texts, one of pages with what they are owed, one of FEN texts with en passant squares, and one of records with what they settle to. With
 * `few`, fewer cases, for a machine that is emulated; with `exact`, also parts without guards, for valgrind.
 */
#include "check.h"

#include <stdio.h>
#include <string.h>

#define N(number) (UINT32_C(1) << (number))
#define RANGE (N(0) | N(5))
#define QUERY (N(0) | N(9) | N(16))
#define COLOURED (N(0) | N(5) | N(9) | N(10) | N(13) | N(16))

/* Document 01, "Order of checks", and document 02: all that each function can answer. The version is no answer. */
static const struct answers all[] = {
    { "menkhodur_version", 0 },
    { "menkhodur_make_square", RANGE },
    { "menkhodur_rights_add", RANGE },
    { "menkhodur_rights_remove", RANGE },
    { "menkhodur_square_rights", RANGE },
    { "menkhodur_piece", RANGE },
    { "menkhodur_clear_square", RANGE },
    { "menkhodur_side_to_move", RANGE },
    { "menkhodur_castle_rights", RANGE },
    { "menkhodur_en_passant", RANGE },
    { "menkhodur_half_moves", RANGE },
    { "menkhodur_full_moves", RANGE },
    { "menkhodur_board_after", N(0) | N(5) | N(6) },
    { "menkhodur_board_settled", RANGE },
    { "menkhodur_fen_read", N(0) | N(18) | N(19) | N(20) },
    { "menkhodur_fen_write", N(0) | N(5) | N(7) },
    { "menkhodur_fen_read_full", N(0) | N(18) | N(19) | N(20) | N(25) },
    { "menkhodur_fen_write_full", N(0) | N(5) | N(7) },
    { "menkhodur_fen_settled", N(0) | N(7) | N(18) | N(19) | N(20) },
    { "menkhodur_fen_page", N(0) | N(7) },
    { "menkhodur_fen_report", N(0) | N(7) | N(13) },
    { "menkhodur_move_read", N(0) | N(2) | N(3) },
    { "menkhodur_move_write", N(0) | N(6) | N(7) },
    { "menkhodur_san_read", N(0) | N(4) | N(5) | N(6) },
    { "menkhodur_san_name", N(0) | N(5) | N(6) | N(7) | N(8) | N(11) },
    { "menkhodur_san_read_standard", N(0) | N(4) | N(5) | N(6) },
    { "menkhodur_san_name_standard", N(0) | N(5) | N(6) | N(7) | N(8) | N(11) },
    { "menkhodur_in_check", RANGE },
    { "menkhodur_legal_list", N(0) | N(5) | N(6) | N(7) },
    { "menkhodur_list_judged", N(0) | N(5) | N(6) },
    { "menkhodur_game_start", N(0) | N(5) | N(6) | N(16) },
    { "menkhodur_game_make_move", N(0) | N(5) | N(6) | N(9) | N(10) | N(11) | N(12) | N(13) | N(16) | N(24) },
    { "menkhodur_game_offer_draw", COLOURED },
    { "menkhodur_game_resign", COLOURED },
    { "menkhodur_game_accept_draw", N(0) | N(9) | N(10) | N(13) | N(14) | N(16) },
    { "menkhodur_game_declare_draw", N(0) | N(9) | N(10) | N(13) | N(15) | N(16) },
    { "menkhodur_game_result", QUERY },
    { "menkhodur_game_can_declare_draw", QUERY },
    { "menkhodur_game_can_claim_by_laws", QUERY },
    { "menkhodur_game_ruling", QUERY },
    { "menkhodur_roll_write", N(0) | N(5) | N(7) | N(13) | N(16) | N(17) },
    { "menkhodur_roll_read", N(0) | N(5) | N(13) | N(16) | N(17) },
    { "menkhodur_roll_read_old", N(0) | N(5) | N(13) | N(16) | N(17) },
    { "menkhodur_roll_differences", N(0) | N(5) | N(7) | N(13) | N(17) },
    { "menkhodur_pgn_check", N(0) | N(21) | N(22) | N(23) },
    { "menkhodur_pgn_next", N(0) | N(21) | N(22) | N(23) },
    { "menkhodur_game_step", N(0) | N(4) | N(5) | N(6) | N(7) | N(21) | N(22) | N(23) },
    { "menkhodur_play", N(0) | N(4) | N(5) | N(6) | N(7) },
};

int main(int argc, char **argv)
{
    exact = argc > 5 && strcmp(argv[5], "exact") == 0;
    few = exact || (argc > 5 && strcmp(argv[5], "few") == 0);
    if (argc < 5) {
        fputs("usage: check POSITIONS PAGES PASSING SETTLED [exact | few]\n", stderr);
        return 2;
    }
    check_base();
    check_steps();
    check_after();
    check_fen(argv[1]);
    check_full(argv[1]);
    check_page(argv[1], argv[2]);
    check_report(argv[1], argv[2]);
    check_settled(argv[1], argv[3], argv[4]);
    check_coordinates();
    check_san();
    check_standard();
    check_log();
    check_orders();
    check_games();
    check_rulings();
    check_counters();
    check_rolls();
    check_differences();
    check_pgn();
    check_played();
    check_legal();
    check_nulls();
    check_layout();
    check_overlaps();
    check_threads();
    return report(all, sizeof all / sizeof *all) ? 0 : 1;
}
