/* Runs one of three small programs, as `run` of a session does, by walking its tree. It checks what ped checks:
 * that a variable is defined, that a subscript is within its bounds, and that a value fits in 32 bits. Names are
 * resolved to slots beforehand. It shows how few instructions such a walk needs.
 *
 *     runs scalar|element|two N     N iterations of K=K+I-I+1, of A(1)=A(1)+I-I+1, or of B(1,1)=B(1,1)+A(1)
 */
#include <inttypes.h>
#include <stdio.h>
#include <stdlib.h>
#include <string.h>

enum kind { NUMBER, SCALAR, INDEX, ELEMENT, PLUS, MINUS };

struct expression {
    enum kind kind;
    int64_t number;             /* of NUMBER the value, of SCALAR and INDEX the slot, of ELEMENT the first cell */
    int subscripts;             /* of ELEMENT */
    int64_t lower[2], upper[2]; /* of ELEMENT: the bounds */
    const struct expression *part[2];
};

struct cell {
    int64_t value;
    int is_defined;
};

static struct cell cells[64];
static int64_t indices[8];

static void fault(int number) {
    printf("fault %d at 3\n", number);
    exit(0);
}

static int64_t value_of(const struct expression *e);

static struct cell *cell_of(const struct expression *e) {
    if (e->kind == SCALAR) return cells + e->number;
    int64_t at = 0, size = 1;
    for (int k = 0; k < e->subscripts; k++) {
        int64_t subscript = value_of(e->part[k]);
        if (subscript < e->lower[k] || subscript > e->upper[k]) fault(2);
        at += (subscript - e->lower[k]) * size;
        size *= e->upper[k] - e->lower[k] + 1;
    }
    return cells + e->number + at;
}

static int64_t value_of(const struct expression *e) {
    switch (e->kind) {
    case NUMBER: return e->number;
    case INDEX: return indices[e->number];
    case PLUS: return value_of(e->part[0]) + value_of(e->part[1]);
    case MINUS: return value_of(e->part[0]) - value_of(e->part[1]);
    default: break;
    }
    struct cell *cell = cell_of(e);
    if (!cell->is_defined) fault(1);
    return cell->value;
}

static void assign(const struct expression *target, const struct expression *value) {
    int64_t result = value_of(value);
    struct cell *cell = cell_of(target);
    if (result > INT32_MAX || result < INT32_MIN) fault(4);
    *cell = (struct cell){result, 1};
}

static struct expression made[64];
static int count;

static const struct expression *make(struct expression e) {
    made[count] = e;
    return made + count++;
}

static const struct expression *number(int64_t n) { return make((struct expression){.kind = NUMBER, .number = n}); }

static const struct expression *pair(enum kind kind, const struct expression *left, const struct expression *right) {
    return make((struct expression){.kind = kind, .part = {left, right}});
}

int main(int argc, char **argv) {
    if (argc != 3) return 2;
    const struct expression *index = make((struct expression){.kind = INDEX, .number = 0});
    const struct expression *one = number(1);
    const struct expression *scalar = make((struct expression){.kind = SCALAR, .number = 0});
    const struct expression *element =
        make((struct expression){.kind = ELEMENT, .number = 8, .subscripts = 1, .lower = {1}, .upper = {9},
                                 .part = {one}});
    const struct expression *two = make((struct expression){
        .kind = ELEMENT, .number = 24, .subscripts = 2, .lower = {1, 1}, .upper = {5, 5}, .part = {one, one}});
    const struct expression *target = strcmp(argv[1], "scalar") ? strcmp(argv[1], "element") ? two : element : scalar;
    const struct expression *value = target == two
        ? pair(PLUS, two, element)
        : pair(PLUS, pair(MINUS, pair(PLUS, target, index), index), one);
    cells[0] = cells[8] = cells[24] = (struct cell){0, 1};
    int64_t last = atoll(argv[2]);
    for (int64_t i = 1; i <= last; i++) {
        indices[0] = i;
        assign(target, value);
    }
    printf("%" PRId64 "\n", cell_of(target)->value);
    return 0;
}
