// CaDiCaL (Debian's package libcadical-dev) as a solver of iCNF. Build: g++ -O2 cadical.cpp -lcadical
#include "icnf.hpp"
#include <cadical.hpp>

struct Peer {
  CaDiCaL::Solver solver;
  void clause(const std::vector<int> &lits) { for (int n : lits) solver.add(n); solver.add(0); }
  bool query(const std::vector<int> &lits) { for (int n : lits) solver.assume(n); return solver.solve() == 10; }
  void stats() { solver.statistics(); }
};

int main() { Peer peer; return answer(peer); }
