/* All routes of a yard by Graphviz's path planner, over a visibility graph built anew. */
#include <graphviz/pathplan.h>
#include <math.h>
#include <stdint.h>
#include <stdlib.h>

/* of vispath.h, which Debian's package leaves out */
vconfig_t *Pobsopen(Ppoly_t **obstacles, int count);
int Pobspath(vconfig_t *config, Ppoint_t p0, int poly0, Ppoint_t p1, int poly1, Ppolyline_t *route);
void Pobsclose(vconfig_t *config);
#define POLYID_NONE (-1111)

/* The length of each present run's route, unrounded, and the count of its straights. */
void graphviz_routes(const uint16_t *blocks, const uint16_t *runs, double *lengths, uint32_t *straights) {
    Ppoint_t corners[24][8];
    Ppoly_t polygons[24], *obstacles[24];
    int count = 0;
    for (int n = 0; n < 24; n++) {
        const uint16_t *words = blocks + 17 * n;
        if (words[0] == 0) continue;
        for (int k = 0; k < words[0]; k++) { /* clockwise */
            corners[n][words[0] - 1 - k].x = words[1 + 2 * k];
            corners[n][words[0] - 1 - k].y = words[2 + 2 * k];
        }
        polygons[n].ps = corners[n];
        polygons[n].pn = words[0];
        obstacles[count++] = &polygons[n];
    }
    vconfig_t *config = Pobsopen(obstacles, count);
    for (int m = 0; m < 24; m++) {
        const uint16_t *words = runs + 5 * m;
        lengths[m] = 0;
        straights[m] = 0;
        if (words[0] == 0) continue;
        Ppoint_t first = {words[1], words[2]}, second = {words[3], words[4]};
        Ppolyline_t route;
        Pobspath(config, first, POLYID_NONE, second, POLYID_NONE, &route);
        straights[m] = (uint32_t)route.pn - 1;
        for (uint32_t k = 0; k < straights[m]; k++)
            lengths[m] += hypot(route.ps[k + 1].x - route.ps[k].x, route.ps[k + 1].y - route.ps[k].y);
        free(route.ps);
    }
    Pobsclose(config);
}
