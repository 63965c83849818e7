// What both peers share: a script is read, one engine clips or slices, and what came of it is told, its time on standard error.
#pragma once

#include <cstdio>
#include <cstring>
#include <string>
#include <time.h>
#include <vector>

struct Spot {
    int x, y;
};
using Path = std::vector<Spot>;

struct Script {
    std::vector<Path> bodies, lines;
};

inline double now() {
    timespec t;
    clock_gettime(CLOCK_MONOTONIC, &t);
    return double(t.tv_sec) + 1e-9 * double(t.tv_nsec);
}

inline Path points_of(const char* words) {
    Path points;
    Spot p;
    int read = 0;
    while (sscanf(words, "%d %d%n", &p.x, &p.y, &read) == 2) {
        points.push_back(p);
        words += read;
    }
    return points;
}

// An engine has clip and slice, each of which works on what `take` was given and answers a text.
template <class Engine>
int run(const char* name) {
    Script script;
    char* line = nullptr;
    size_t room = 0;
    while (getline(&line, &room, stdin) > 0) {
        if (!strncmp(line, "body ", 5)) script.bodies.push_back(points_of(line + 5));
        if (!strncmp(line, "line ", 5)) script.lines.push_back(points_of(line + 5));
        bool clips = !strncmp(line, "clip", 4), slices = !strncmp(line, "slice", 5);
        if (clips || slices) {
            Engine engine;
            engine.take(script);
            double start = now();
            std::string text = clips ? engine.clip() : engine.slice();
            double end = now();
            fprintf(stderr, "%s: %.0f us\n", clips ? "clip" : "slice", (end - start) * 1e6);
            printf("%s %s\n", name, text.c_str());
        }
    }
    return 0;
}
