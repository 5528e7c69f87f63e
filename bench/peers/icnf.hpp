// Reads `p inccnf` and `p cnf` from standard input for a solver of another project, and prints its answers. A solver is a type with
// clause(lits), query(assumptions), which answers whether there is a model, and stats(). Comments may stand on lines of their own.
#include <chrono>
#include <cstdio>
#include <cstdlib>
#include <string>
#include <vector>

template <class Solver> int answer(Solver &solver) {
  std::string text;
  char piece[1 << 16];
  for (size_t n; (n = fread(piece, 1, sizeof piece, stdin)) > 0;) text.append(piece, n);
  const char *at = text.c_str();
  auto line_end = [&] { while (*at && *at != '\n') at++; };
  bool incremental = text.find("p inccnf") != std::string::npos, assumes = false;
  std::vector<int> lits;
  int last = 0;
  double slowest = 0;
  auto ask = [&] {
    auto start = std::chrono::steady_clock::now();
    last = solver.query(lits) ? 10 : 20;
    double took = std::chrono::duration<double>(std::chrono::steady_clock::now() - start).count();
    if (took > slowest) slowest = took;
    puts(last == 10 ? "s SATISFIABLE" : "s UNSATISFIABLE");
  };
  while (*at) {
    if (*at == 'c' || *at == 'p') { line_end(); continue; }
    if (*at == 'a') { assumes = true; at++; continue; }
    if (*at <= ' ') { at++; continue; }
    char *end;
    long lit = strtol(at, &end, 10);
    at = end;
    if (lit) { lits.push_back((int)lit); continue; }
    if (assumes) ask(); else solver.clause(lits);
    assumes = false;
    lits.clear();
  }
  if (!incremental) ask();
  solver.stats();
  return last;
}
