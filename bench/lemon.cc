// Solves a minimum cost flow problem by LEMON: lemon FILE RUNS SECONDS METHOD..
// FILE is in the DIMACS format, with no supplies. A METHOD is `simplex`, its network simplex, or `scaling`, `push` or `augment`, its
// cost scaling by partial augmentations, pushes or augmentations. Each runs RUNS times in a process of its own, which ends where a run
// takes more than SECONDS of a processor. Prints its name, the least processor milliseconds of a run with the building of the graph, and the cost times -1.
#include <lemon/cost_scaling.h>
#include <lemon/network_simplex.h>
#include <lemon/smart_graph.h>

#include <algorithm>
#include <cstdio>
#include <cstdlib>
#include <ctime>
#include <string>
#include <sys/time.h>
#include <sys/wait.h>
#include <unistd.h>
#include <vector>

using Graph = lemon::SmartDigraph;
using Simplex = lemon::NetworkSimplex<Graph, long long, long long>;
using Scaling = lemon::CostScaling<Graph, long long, long long>;

struct Arc {
  int tail, head;
  long long capacity, cost;
};

struct Problem {
  int nodes = 0;
  std::vector<Arc> arcs;
};

static Problem read(const char *path) {
  Problem problem;
  FILE *file = fopen(path, "r");
  if (!file) exit(1);
  char line[256];
  while (fgets(line, sizeof line, file)) {
    int arcs;
    Arc arc;
    if (sscanf(line, "p min %d %d", &problem.nodes, &arcs) == 2) problem.arcs.reserve(arcs);
    if (sscanf(line, "a %d %d 0 %lld %lld", &arc.tail, &arc.head, &arc.capacity, &arc.cost) == 4) problem.arcs.push_back(arc);
  }
  fclose(file);
  return problem;
}

static double seconds() {
  timespec time;
  clock_gettime(CLOCK_PROCESS_CPUTIME_ID, &time);
  return time.tv_sec + time.tv_nsec * 1e-9;
}

template <class Method, class Run> static long long solve(const Problem &problem, Run run) {
  Graph graph;
  graph.reserveNode(problem.nodes);
  graph.reserveArc(problem.arcs.size());
  for (int node = 0; node < problem.nodes; node++) graph.addNode();
  Graph::ArcMap<long long> capacity(graph), cost(graph);
  for (const Arc &arc : problem.arcs) {
    Graph::Arc added = graph.addArc(graph.nodeFromId(arc.tail - 1), graph.nodeFromId(arc.head - 1));
    capacity[added] = arc.capacity;
    cost[added] = arc.cost;
  }
  Method method(graph);
  method.upperMap(capacity).costMap(cost);
  run(method);
  return -method.template totalCost<long long>();
}

template <class Method, class Run> static void timed(const std::string &name, const Problem &problem, int runs, int limit, Run run) {
  fflush(stdout);
  pid_t child = fork();
  if (child == 0) {
    double least = 1e9;
    long long total = 0;
    for (int i = 0; i < runs; i++) {
      itimerval time = {{0, 0}, {limit, 0}};
      setitimer(ITIMER_PROF, &time, nullptr);
      double began = seconds();
      total = solve<Method>(problem, run);
      least = std::min(least, seconds() - began);
    }
    printf("%s %.2f %lld\n", name.c_str(), least * 1e3, total);
    fflush(stdout);
    _exit(0);
  }
  int status;
  waitpid(child, &status, 0);
  if (!WIFEXITED(status)) printf("%s - -\n", name.c_str());
}

int main(int count, char **words) {
  if (count < 5) return 2;
  Problem problem = read(words[1]);
  int runs = atoi(words[2]), limit = atoi(words[3]);
  for (int i = 4; i < count; i++) {
    std::string name = words[i];
    if (name == "simplex") timed<Simplex>(name, problem, runs, limit, [](Simplex &method) { method.run(); });
    if (name == "scaling") timed<Scaling>(name, problem, runs, limit, [](Scaling &method) { method.run(); });
    if (name == "push") timed<Scaling>(name, problem, runs, limit, [](Scaling &method) { method.run(Scaling::PUSH); });
    if (name == "augment") timed<Scaling>(name, problem, runs, limit, [](Scaling &method) { method.run(Scaling::AUGMENT); });
  }
}
