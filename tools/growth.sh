# shellcheck shell=bash
# Refuses a program its growths of memory, and has the sessions of which they are refused: read by tools/refused-growth.sh and
# tools/going-on.sh, by this file's full path. It wants a C compiler, and of its reader `stop`, which ends the script with a message.

# Writes growth.so into the present folder, for LD_PRELOAD. It counts the calls for memory that the program itself makes, and refuses the
# one of the number GROWTH, where ONWARD is set with all behind it. At the end it writes how many there were into the file GROWTHS,
# where that is named.
make_growth() {
    cat >growth.c <<'END_OF_SOURCE'
#define _GNU_SOURCE
#include <dlfcn.h>
#include <errno.h>
#include <link.h>
#include <stdio.h>
#include <stdlib.h>

static unsigned long calls, refused;
static int onward;
static char *first, *last;

static int find_program(struct dl_phdr_info *info, size_t size, void *data) {
    (void)size, (void)data;
    for (int i = 0; i < info->dlpi_phnum; i++) {
        const ElfW(Phdr) *part = &info->dlpi_phdr[i];
        char *begin = (char *)info->dlpi_addr + part->p_vaddr;
        if (part->p_type != PT_LOAD || !(part->p_flags & PF_X)) continue;
        if (!first || begin < first) first = begin;
        if (begin + part->p_memsz > last) last = begin + part->p_memsz;
    }
    return 1; /* The first object is the program. */
}

__attribute__((constructor)) static void begin(void) {
    const char *number = getenv("GROWTH");
    refused = number ? strtoul(number, 0, 10) : 0;
    onward = getenv("ONWARD") != 0;
    dl_iterate_phdr(find_program, 0);
}

__attribute__((destructor)) static void end(void) {
    const char *name = getenv("GROWTHS");
    FILE *file = name ? fopen(name, "w") : 0;
    if (!file) return;
    fprintf(file, "%lu\n", calls);
    fclose(file);
}

static int is_refused(void *caller) {
    if ((char *)caller < first || (char *)caller >= last) return 0;
    calls++;
    if (!refused || (onward ? calls < refused : calls != refused)) return 0;
    errno = ENOMEM;
    return 1;
}

void *malloc(size_t size) {
    static void *(*next)(size_t);
    if (!next) next = (void *(*)(size_t))dlsym(RTLD_NEXT, "malloc");
    return is_refused(__builtin_return_address(0)) ? 0 : next(size);
}

void *realloc(void *old, size_t size) {
    static void *(*next)(void *, size_t);
    if (!next) next = (void *(*)(void *, size_t))dlsym(RTLD_NEXT, "realloc");
    return is_refused(__builtin_return_address(0)) ? 0 : next(old, size);
}
END_OF_SOURCE
    "${CC:-cc}" -O2 -shared -fPIC -o growth.so growth.c -ldl || stop 'growth.c cannot be compiled'
}

# ---- Sessions

# Writes the files program.f and script of the session that is named into the present folder.
write_session() {
    case $1 in
        wavefront) wavefront ;;
        reversal) reversal ;;
        twelve) twelve ;;
        sums) sums ;;
        auto) automatic ;;
        *) stop "there is no session $1" ;;
    esac
}

automatic() {
    cat >program.f <<'END_OF_PROGRAM'
      INTEGER A(5), B(5), C(5), T
      SAVE C, K
      DO 10 I=1,5
      T=I*I
   10 A(I)=T
      B(1)=0
      DO 20 I=2,5
      B(I)=A(I)
   20 C(I)=B(I-1)
      K=0
      DO 30 I=2,5
   30 K=K+B(I)
      DO 40 I=2,5
   40 A(I)=A(I-1)+C(I)
      END
END_OF_PROGRAM
    printf '%s\n' auto undo redo auto run >script
}

wavefront() {
    cat >program.f <<'END_OF_PROGRAM'
      INTEGER A(3,3)
      SAVE A
      DO 20 I=1,3
      DO 10 J=1,3
   10 A(I,J)=1
   20 CONTINUE
      DO 40 I=2,3
      DO 30 J=2,3
   30 A(I,J)=A(I-1,J)+A(I,J-1)
   40 CONTINUE
      END
END_OF_PROGRAM
    printf '%s\n' 'skew 4 1' 'interchange 4' 'parallel 5' 'deps 6' 'run 1 1 1' print >script
}

reversal() {
    cat >program.f <<'END_OF_PROGRAM'
      INTEGER A(10),B(10)
      DO 10 I=1,10
   10 A(I)=B(I)+1
      END
END_OF_PROGRAM
    printf '%s\n' tested 'reverse 1' tested undo tested redo tested print undo undo >script
}

twelve() {
    cat >program.f <<'END_OF_PROGRAM'
      INTEGER A(5,5), B(8), C(8), D(8), L(8), T
      SAVE A, B, C, D, L
      DO 20 I=1,5
      DO 10 J=1,5
   10 A(I,J)=I+J
   20 CONTINUE
      DO 40 I=2,5
      DO 30 J=2,5
   30 A(I,J)=A(I-1,J)+A(I,J-1)
   40 CONTINUE
      DO 50 I=1,8
      T=I*2
      B(I)=T
   50 CONTINUE
      DO 60 I=1,8
      C(I)=B(I)+1
   60 L(I)=9-I
      DO 70 I=1,8
   70 D(L(I))=C(I)
      END
END_OF_PROGRAM
    cat >script <<'END_OF_SCRIPT'
tested
interchange 1
undo
reverse 1
undo
strip 2 2
undo
peel 1 first
undo
skew 4 1
interchange 4
parallel 5
deps 6
run 1 1 1
serial 5
privatise 7 T
parallel 7
run 3 1 2
undo
undo
expand 7 T
parallel 7
distribute 10
fuse 10
parallel 13
reject 13 D
parallel 13
races
advise 10
insert 2
C a remark
.
delete 3 3
replace 1 1
      INTEGER A(5,5), B(8), C(8), D(8), L(8), T, Q
.
undo
undo
undo
redo
redo
redo
tested
run 5 4 3 2 1
show
print
END_OF_SCRIPT
}

sums() {
    cat >program.f <<'END_OF_PROGRAM'
      INTEGER A(4)
      SAVE K, L
      K=9
      L=0
      DO 10 I=1,4
      A(I)=I*I
      K=K-A(I)
   10 IF (A(I).GT.4) L=A(I)+L
      DO 20 I=1,2
C$REDUCE K
   20 K=K+I
      PRINT *,K
      END
END_OF_PROGRAM
    cat >script <<'END_OF_SCRIPT'
reduce 3 K
reduce 3 K L
deps 3
run
run 3 2 1 0 2 1
undo
run 1 1
redo
reduce 9 K
run 3 3 3
print
END_OF_SCRIPT
}
