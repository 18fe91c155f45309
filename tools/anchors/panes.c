/* Writes what `ped show` writes for two loops around N statements A(I,J)=A(I-1,J)+A(I,J-1): the source pane, and
 * a row for each dependence. It enumerates the same ordered pairs of references, and tests each by strong SIV in
 * both positions. Nothing else is general here: it shows how few instructions the same work needs.
 *
 *     panes N
 */
#include <stdio.h>
#include <stdlib.h>

/* A reference: its statement, its number there, whether it writes, and the constants of its two subscripts. */
struct reference {
    int statement, number, writes, constant[2];
};

static char buffer[1 << 16];
static size_t used;

static void put(const char *text) {
    while (*text) buffer[used++] = *text++;
}

static void put_number(int number) {
    char digits[12];
    int count = 0;
    if (number < 0) buffer[used++] = '-';
    unsigned left = number < 0 ? -(unsigned)number : (unsigned)number;
    do digits[count++] = (char)('0' + left % 10);
    while (left /= 10);
    while (count) buffer[used++] = digits[--count];
}

static void flush(void) {
    fwrite(buffer, 1, used, stdout);
    used = 0;
}

static void put_reference(const struct reference *it) {
    put_number(it->statement);
    put(".");
    put_number(it->number);
    put(" ");
}

static const char *kind_of(const struct reference *source, const struct reference *sink) {
    return source->writes ? sink->writes ? "output " : "flow " : "anti ";
}

/* Writes the row of a pair, where it has one. The distance is that of the source's iteration to the sink's; a
 * vector whose first distance other than 0 is negative leads backwards, and with both 0 the sink has to come
 * later in the text. */
static void put_row(const struct reference *source, const struct reference *sink) {
    int distance[2], level = 0;
    for (int at = 0; at < 2; at++) {
        distance[at] = source->constant[at] - sink->constant[at];
        if (distance[at] > 7 || distance[at] < -7) return;
        if (!level && distance[at]) level = distance[at] > 0 ? at + 1 : -1;
    }
    if (level < 0) return;
    if (!level && (source->statement > sink->statement ||
                   (source->statement == sink->statement && source->number >= sink->number)))
        return;
    put_reference(source);
    put_reference(sink);
    put("A ");
    put(kind_of(source, sink));
    put(level == 2 ? "2 (" : level == 1 ? "1 (" : "- (");
    for (int at = 0; at < 2; at++) {
        put(distance[at] > 0 ? "<" : distance[at] < 0 ? ">" : "=");
        put(at ? ") (" : ",");
    }
    put_number(distance[0]);
    put(",");
    put_number(distance[1]);
    put(") proven\n");
    if (used > sizeof buffer - 128) flush();
}

static long count_rows(const struct reference *all, int count) {
    long rows = 0;
    for (int a = 0; a < count; a++)
        for (int b = 0; b < count; b++) {
            const struct reference *source = all + a, *sink = all + b;
            if (!source->writes && !sink->writes) continue;
            int level = 0;
            for (int at = 0; at < 2; at++) {
                int distance = source->constant[at] - sink->constant[at];
                if (!level && distance) level = distance > 0 ? at + 1 : -1;
            }
            rows += level > 0 || (!level && (source->statement < sink->statement ||
                                             (source->statement == sink->statement && source->number < sink->number)));
        }
    return rows;
}

int main(int argc, char **argv) {
    int size = argc == 2 ? atoi(argv[1]) : 0;
    struct reference *all = calloc(3 * (size_t)size + 1, sizeof *all);
    if (!all) return 1;
    printf("source %d\n    1            INTEGER A(9,9)\n    2    1       DO I = 2, 9\n", size + 6);
    printf("    3    2         DO J = 2, 9\n");
    for (int at = 0; at < size; at++) {
        printf("%5d%5d           A(I,J) = A(I-1,J)+A(I,J-1)\n", at + 4, at + 3);
        struct reference *mine = all + 3 * at;
        mine[0] = (struct reference){at + 3, 1, 0, {-1, 0}};
        mine[1] = (struct reference){at + 3, 2, 0, {0, -1}};
        mine[2] = (struct reference){at + 3, 3, 1, {0, 0}};
    }
    printf("%5d              END DO\n%5d            END DO\n%5d            END\n", size + 4, size + 5, size + 6);
    printf("dependences %ld\n", count_rows(all, 3 * size));
    for (int a = 0; a < 3 * size; a++)
        for (int b = 0; b < 3 * size; b++)
            if (all[a].writes || all[b].writes) put_row(all + a, all + b);
    flush();
    free(all);
    return 0;
}
