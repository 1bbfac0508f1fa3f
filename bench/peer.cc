/* The measure beside a peer: the library's settle against MiniSat's propagation of the same rows and premises, without search.
 *
 * "cold" builds a solver from the rows, assumes the premises, propagates, and takes the solver down: what a call of the library does that keeps
 * nothing. "warm" has the solver built once; it assumes the premises, propagates, and takes them back. The boards are without conflict, and both
 * must derive the same literals before anything is timed. MiniSat neither tests the rows nor gives ranks or supports. Times as in bench.c. */
#include <minisat/core/Solver.h>

#include <cmath>
#include <cstdio>
#include <cstdlib>
#include <ctime>

#include "boards.h"

namespace {

using Minisat::lbool;

enum { RUNS = 15, BATCH_NS = 4000000 };
enum { LIBRARY, COLD, WARM, SIDES };

volatile unsigned sink;

/* The literal at a place, as MiniSat has it: +s even and -s odd, from 0 on. */
Minisat::Lit literal_at(int p) {
    return Minisat::mkLit(p / 2, p % 2 != 0);
}

/* A solver that propagates premises and nothing more. */
class Propagator : public Minisat::Solver {
public:
    /* Takes the rows of the board over. */
    Propagator() {
        Minisat::vec<Minisat::Lit> clause;
        for (int s = 0; s < now.board.symbols; s++) newVar();
        for (const int16_t *row = now.table; row < now.table + TUP_ROW_WIDTH * now.board.rows; row += TUP_ROW_WIDTH) {
            clause.clear();
            for (int i = 0; i < TUP_ROW_LITERALS && row[i] != 0; i++) clause.push(Minisat::mkLit(std::abs(row[i]) - 1, row[i] < 0));
            addClause_(clause);
        }
    }

    /* Assumes the premises and propagates; true if there is no conflict. */
    bool hold() {
        newDecisionLevel();
        for (int p = 0; p < 2 * now.board.symbols; p++)
            if (now.board.held[FURNACE - 1][p] != 0 && !enqueue(literal_at(p))) return false;
        return propagate() == Minisat::CRef_Undef;
    }

    /* Takes the premises back. */
    void withdraw() { cancelUntil(0); }

    /* The label of a symbol, from 0 on, where there is no conflict. */
    unsigned label(int s) const { return value(literal_at(2 * s)) == l_True ? 1 : value(literal_at(2 * s)) == l_False ? 2 : 0; }
};

uint8_t labels[TUP_MOST_SYMBOLS];
uint16_t ranks[TUP_PLACES], supports[TUP_PLACES];
Propagator *built;

/* The processor's time so far. */
double clock_ns() {
    timespec time;
    clock_gettime(CLOCK_PROCESS_CPUTIME_ID, &time);
    return 1e9 * double(time.tv_sec) + double(time.tv_nsec);
}

/* Propagates once on one side. */
unsigned make(int side) {
    if (side == LIBRARY)
        return tup_settle(now.board, now.table, NUMBERS, FURNACE, labels, TUP_MOST_SYMBOLS, ranks, TUP_PLACES, supports, TUP_PLACES);
    if (side == COLD) return Propagator().hold();
    bool held = built->hold();
    built->withdraw();
    return held;
}

/* Ends the program if the two derive other literals. */
void compare() {
    bool same = make(LIBRARY) == TUP_DONE && built->okay() && built->hold();
    for (int s = 0; same && s < now.board.symbols; s++) same = built->label(s) == labels[s];
    built->withdraw();
    if (same) return;
    std::fprintf(stderr, "peer: MiniSat does not derive what the library does\n");
    std::exit(1);
}

/* Nanoseconds for one call, over so many. */
double time_calls(int side, unsigned count) {
    double begin = clock_ns();
    for (unsigned i = 0; i < count; i++) sink = sink + make(side);
    return (clock_ns() - begin) / count;
}

/* How many calls take long enough to be timed. */
unsigned batch(int side) {
    unsigned count = 1;
    while (count < 1u << 20 && time_calls(side, count) * count < BATCH_NS) count *= 2;
    return count;
}

/* Compares and measures the board, the sides taking turns, and prints a line. */
void print_board(const char *board) {
    Propagator solver;
    double best[SIDES];
    unsigned count[SIDES], derived = 0;
    built = &solver;
    compare();
    for (int s = 0; s < now.board.symbols; s++) derived += labels[s] != 0;
    for (int side = 0; side < SIDES; side++) best[side] = INFINITY, count[side] = batch(side);
    for (int run = 0; run < RUNS; run++)
        for (int side = 0; side < SIDES; side++) best[side] = std::fmin(best[side], time_calls(side, count[side]));
    std::printf("%-28s%8u%14.1f%14.1f%9.2f%14.1f%9.2f\n", board, derived, best[LIBRARY], best[COLD], best[LIBRARY] / best[COLD], best[WARM],
                best[LIBRARY] / best[WARM]);
}

} // namespace

/* Prints the table. */
int main() {
    std::printf("%-28s%8s%14s%14s%9s%14s%9s\n", "ns per settling", "derived", "library", "MiniSat cold", "ratio", "warm", "ratio");
    full_board(false), print_board("full, 2,048 rows of 2 to 4");
    chain(200), print_board("chain of 200");
    long_rows(false), print_board("2,048 rows of 8");
    return 0;
}
