// MiniSat 2.2 (Debian's package minisat) as a solver of iCNF, without its preprocessing. Build: g++ -O2 minisat.cpp -lminisat
#include "icnf.hpp"
#include <minisat/core/Solver.h>

struct Peer {
  Minisat::Solver solver;
  Minisat::Lit lit(int n) {
    while (solver.nVars() < abs(n)) solver.newVar();
    return Minisat::mkLit(abs(n) - 1, n < 0);
  }
  void fill(const std::vector<int> &lits, Minisat::vec<Minisat::Lit> &out) { for (int n : lits) out.push(lit(n)); }
  void clause(const std::vector<int> &lits) { Minisat::vec<Minisat::Lit> out; fill(lits, out); solver.addClause(out); }
  bool query(const std::vector<int> &lits) { Minisat::vec<Minisat::Lit> out; fill(lits, out); return solver.solve(out); }
  void stats() {
    fprintf(stderr, "conflicts %llu decisions %llu propagations %llu restarts %llu\n", (unsigned long long)solver.conflicts,
            (unsigned long long)solver.decisions, (unsigned long long)solver.propagations, (unsigned long long)solver.starts);
  }
};

int main() { Peer peer; return answer(peer); }
