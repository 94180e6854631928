/* The vertices of more points than one machine holds, by MPI: a reduction of convex polygons by an operator of one's own.
 *
 *     mpirun -n PROCESSES reduce POINTS [square|parabola [SEED [BLOCK]]]
 *
 * The vertices of a union are those of the vertices. Each process takes every PROCESSES-th block of at most 1,048,576 points, which here are
 * made by the block's number from the seed (those of blocks.py), and keeps the vertices of what it has seen. Then MPI_Reduce merges the
 * polygons of all: an element of the reduction is a count and as many points as all processes have vertices together, so that each
 * sum of polygons fits in it. The answer goes to standard output, what it took to standard error. */
#include <inttypes.h>
#include <mpi.h>
#include <stdio.h>
#include <stdlib.h>
#include <string.h>

#include "hull.h"

#define BLOCK ((uint64_t)1 << 20)

/* What the operator has to know beside its arguments: for how many points an element has space, and how many it merged. */
static size_t capacity;
static unsigned long long merges;

/* An element is an array of points, whose first one has in `x` how many vertices follow. */
static size_t count_of(const hull_point *element) {
    return (size_t)element[0].x;
}

static void give_up(const char *why) {
    fprintf(stderr, "reduce: %s\n", why);
    MPI_Abort(MPI_COMM_WORLD, 1);
    exit(1);
}

static hull_point *array_of(size_t count) {
    hull_point *made = calloc(count + 1, sizeof *made);
    if (made == NULL) {
        give_up("no memory");
    }
    return made;
}

/* Writes the vertices of points to an array of `space` points; returns how many they are. */
static size_t vertices_of(const hull_point *points, size_t count, hull_point *out, size_t space) {
    const hull_reply reply = hull_polygon_of(points, count, out, space);
    if (reply.code != HULL_VERTICES) {
        give_up(hull_code_name(reply.code));
    }
    return (size_t)reply.number;
}

/* Merges a polygon into an element with space for `space` vertices. Of more than HULL_LIMIT_MAX different vertices there is no polygon. */
static void merge_into(hull_point *element, const hull_point *vertices, size_t count, size_t space) {
    const size_t there = count_of(element);
    hull_point *all = array_of(there + count);
    memcpy(all, element + 1, there * sizeof *all);
    memcpy(all + there, vertices, count * sizeof *all);
    element[0].x = (int64_t)vertices_of(all, there + count, element + 1, space);
    free(all);
}

/* The operator of the reduction: merges the first polygon of each pair into the second. */
static void merge(void *from, void *to, int *count, MPI_Datatype *type) {
    (void)type;
    for (size_t i = 0; i < (size_t)*count; i++, merges++) {
        const hull_point *other = (const hull_point *)from + i * (capacity + 1);
        merge_into((hull_point *)to + i * (capacity + 1), other + 1, count_of(other), capacity);
    }
}

/* A number of 64 bits that looks random, of a word of a counter (Steele, Lea and Flood, 2014). */
static uint64_t mixed(uint64_t word) {
    word = (word ^ word >> 30) * UINT64_C(0xBF58476D1CE4E5B9);
    word = (word ^ word >> 27) * UINT64_C(0x94D049BB133111EB);
    return word ^ word >> 31;
}

static int64_t coordinate(uint64_t seed, uint64_t counter) {
    return (int64_t)(mixed(seed + counter * UINT64_C(0x9E3779B97F4A7C15)) >> 24) - ((int64_t)1 << 39);
}

/* The point of a number: a random one of a square, or one of a parabola in mixed order, where all are vertices. */
static hull_point point_of(int is_parabola, uint64_t seed, uint64_t number) {
    hull_point made = {coordinate(seed, 2 * number), coordinate(seed, 2 * number + 1)};
    if (is_parabola) {
        made.x = (int64_t)(number * UINT64_C(0x9E3779B1) % BLOCK) - ((int64_t)1 << 19);
        made.y = made.x * made.x;
    }
    return made;
}

/* The vertices of the blocks of one process, as an element with space for as many as there may be. */
static hull_point *vertices_of_blocks(uint64_t points, int is_parabola, uint64_t seed, uint64_t block, int rank, int processes) {
    hull_point *element = array_of(HULL_LIMIT_MAX), *made = array_of(block), *vertices = array_of(block);
    for (uint64_t first = block * (uint64_t)rank; first < points; first += block * (uint64_t)processes) {
        const size_t count = (size_t)(points - first < block ? points - first : block);
        for (size_t i = 0; i < count; i++) {
            made[i] = point_of(is_parabola, seed, first + i);
        }
        merge_into(element, vertices, vertices_of(made, count, vertices, block), HULL_LIMIT_MAX);
    }
    free(vertices);
    free(made);
    return element;
}

/* The polygon of all, in the first process; null in the others. */
static hull_point *reduce(hull_point *ours, int rank) {
    unsigned long long mine = count_of(ours), all = 0;
    MPI_Allreduce(&mine, &all, 1, MPI_UNSIGNED_LONG_LONG, MPI_SUM, MPI_COMM_WORLD);
    capacity = all < HULL_LIMIT_MAX ? (size_t)all : HULL_LIMIT_MAX;
    MPI_Datatype polygon;
    MPI_Op by_merging;
    MPI_Type_contiguous((int)(2 * (capacity + 1)), MPI_INT64_T, &polygon);
    MPI_Type_commit(&polygon);
    MPI_Op_create(merge, 1, &by_merging);
    hull_point *result = rank == 0 ? array_of(capacity) : NULL;
    MPI_Reduce(ours, result, 1, polygon, by_merging, 0, MPI_COMM_WORLD);
    MPI_Op_free(&by_merging);
    MPI_Type_free(&polygon);
    return result;
}

static void print_result(uint64_t points, const hull_point *element) {
    const size_t count = count_of(element);
    const hull_reply area = hull_polygon_area(element + 1, count), far = hull_polygon_diameter(element + 1, count);
    unsigned __int128 doubled = (unsigned __int128)area.high << 64 | area.number;
    char digits[40], *at = digits + sizeof digits - 1;
    for (*at = 0; doubled > 0 || *at == 0; doubled /= 10) {
        *--at = (char)('0' + (int)(doubled % 10));
    }
    printf("%" PRIu64 " points, %zu corners, doubled area %s diameter %" PRId64 " %" PRId64 " %" PRId64 " %" PRId64 "\n", points, count, at,
           far.x, far.y, far.other_x, far.other_y);
}

int main(int argc, char **argv) {
    int rank, processes;
    MPI_Init(&argc, &argv);
    MPI_Comm_rank(MPI_COMM_WORLD, &rank);
    MPI_Comm_size(MPI_COMM_WORLD, &processes);
    const uint64_t points = argc > 1 ? strtoull(argv[1], NULL, 10) : 0, seed = argc > 3 ? strtoull(argv[3], NULL, 10) : 1;
    const uint64_t block = argc > 4 ? strtoull(argv[4], NULL, 10) : BLOCK;
    const int is_parabola = argc > 2 && strcmp(argv[2], "parabola") == 0;
    if (points < 1 || block < 1 || block > BLOCK || (is_parabola && points > BLOCK)) {
        give_up("blocks are of 1 to 1048576 points, and the parabola has so many at most");
    }
    MPI_Barrier(MPI_COMM_WORLD);
    const double begun = MPI_Wtime();
    hull_point *ours = vertices_of_blocks(points, is_parabola, seed, block, rank, processes), *result = reduce(ours, rank);
    const double seconds = MPI_Wtime() - begun;
    unsigned long long all_merges = 0;
    MPI_Reduce(&merges, &all_merges, 1, MPI_UNSIGNED_LONG_LONG, MPI_SUM, 0, MPI_COMM_WORLD);
    if (rank == 0) {
        print_result(points, result);
        fprintf(stderr, "%.2f s, %.2f million points a second, %llu bytes sent\n", seconds, (double)points / seconds / 1e6,
                all_merges * sizeof(hull_point) * (capacity + 1));
    }
    free(result);
    free(ours);
    MPI_Finalize();
    return 0;
}
