// CaDiCaL's library on one question with ascending bounds, as `diagnose` asks it: `diagnose.py` compiles it where the library is installed.
//
//     ascending SECONDS FORMULA..
//
// The formulas are what `cnf` prints for `any`, 0, 1 and so on. Each begins with the clauses of the one before, and ends with the unit clauses that the
// program assumes: these are assumed here too. It stops at the first formula behind `any` that has a model, and prints for how many
// there was none, and the seconds of the processor, without those for reading. Behind SECONDS of these it stops too, with status 1.
#include <cadical.hpp>
#include <ctime>
#include <fstream>
#include <iostream>
#include <string>
#include <vector>

using Clause = std::vector<int>;

static std::vector<Clause> read(const char *path) {
    std::ifstream in(path);
    std::vector<Clause> clauses;
    std::string line;
    Clause clause;
    while (std::getline(in, line)) {
        if (line.empty() || line[0] == 'p' || line[0] == 'c') continue;
        size_t at = 0;
        while (at < line.size()) {
            size_t end = 0;
            int literal = std::stoi(line.substr(at), &end);
            at += end;
            while (at < line.size() && line[at] == ' ') at++;
            if (literal != 0) clause.push_back(literal);
            else clauses.push_back(clause), clause.clear();
        }
    }
    return clauses;
}

struct Limit : CaDiCaL::Terminator {
    std::clock_t left, end = 0;
    explicit Limit(double seconds) : left(seconds * CLOCKS_PER_SEC) {}
    bool terminate() override { return std::clock() > end; }
};

int main(int count, char **words) {
    Limit limit(std::stod(words[1]));
    CaDiCaL::Solver solver;
    solver.connect_terminator(&limit);
    size_t added = 0;
    int refuted = 0;
    bool late = false;
    std::clock_t spent = 0;
    for (int word = 2; word < count; word++) {
        std::vector<Clause> clauses = read(words[word]);
        size_t assumed = clauses.size();
        while (assumed > 0 && clauses[assumed - 1].size() == 1) assumed--;
        std::clock_t begun = std::clock();
        limit.end = begun + limit.left - spent;
        for (; added < assumed; added++) {
            for (int literal : clauses[added]) solver.add(literal);
            solver.add(0);
        }
        for (size_t place = assumed; place < clauses.size(); place++) solver.assume(clauses[place][0]);
        int status = solver.solve();
        spent += std::clock() - begun;
        late = status == 0;
        if (status == 20) refuted++;
        if (late || (status == 10) == (word > 2)) break;
    }
    std::cout << refuted << " " << double(spent) / CLOCKS_PER_SEC << "\n";
    return late;
}
