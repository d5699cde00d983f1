// What the SAT solver CaDiCaL fixes at level 0 of clause files, which it reads itself: for each file named in the
// arguments a line, "contradictory", or the marks that are fixed, each with a blank before it.
//
// Nothing is solved, so that no search, no probing and no simplifying of clauses can have a part in it: while a file is
// read, the solver takes each clause in without the marks that fail already, and where one mark is left, propagates it.
#include <cadical.hpp>

#include <cstdio>
#include <vector>

namespace {

// Of a contradictory file the solver keeps the empty clause alone.
struct EmptyClause : CaDiCaL::ClauseIterator {
    bool found = false;

    bool clause(const std::vector<int> &marks) override {
        found = found || marks.empty();
        return true;
    }
};

bool tell(const char *path) {
    CaDiCaL::Solver solver;
    solver.set("quiet", 1);
    int options = 0;
    const char *wrong = solver.read_dimacs(path, options);
    if (wrong != nullptr) {
        std::fprintf(stderr, "%s\n", wrong);
        return false;
    }
    EmptyClause empty;
    solver.traverse_clauses(empty);
    if (empty.found) {
        std::puts("contradictory");
        return true;
    }
    for (int option = 1; option <= options; option++) {
        const int fixed = solver.fixed(option);
        if (fixed != 0) {
            std::printf(" %d", fixed > 0 ? option : -option);
        }
    }
    std::putchar('\n');
    return true;
}

}  // namespace

int main(int count, char **paths) {
    for (int at = 1; at < count; at++) {
        if (!tell(paths[at])) {
            return 1;
        }
    }
    return 0;
}
