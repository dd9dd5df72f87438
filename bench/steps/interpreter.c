/* A plain interpreter of the code of one object: a switch over the instructions of a listing, as `pool code` writes it, with
   values of 16 bytes that bear a tag, tests for nil and tests for overflow. It runs the body once and prints the seconds of the
   clock and of the processor that it takes, without those of reading the listing; what the program writes goes to the output.
   Built with -DCOUNT it prints the number of local transitions instead, which is that of the record.

       interpreter LISTING

   The listing is of one class. It does not tell parameters from locals: here all temps of a method are parameters. */
#include <stdint.h>
#include <stdio.h>
#include <stdlib.h>
#include <string.h>
#include <time.h>

#ifdef COUNT
static long count;
#define STEP count++
#else
#define STEP (void)0
#endif

enum Tag { NIL, INT, BOOL };
typedef struct { int64_t tag, is; } Value;

enum Code { PUSH_INT, PUSH_BOOL, PUSH_NIL, JUMP, LOAD_I, LOAD_T, STORE_I, STORE_T, OPER, POP, BRANCH, LOOP, CALL, RET, WRITE, HALT };
static const char *const codes[] = {"PushInt", "PushBool", "PushNil", "Jump", "LoadI", "LoadT", "StoreI", "StoreT", "Oper", "Pop",
                                    "Branch", "Loop", "Call", "Ret", "Write", "Halt", NULL};
enum Op { ADD, SUB, MUL, DIV, REM, NEG, LESS, LESS_EQ, MORE, MORE_EQ, SAME, DIFFERS, AND, OR, NOT };
static const char *const ops[] = {"+", "-", "*", "/", "%", "neg", "<", "<=", ">", ">=", "==", "!=", "and", "or", "not", NULL};

typedef struct { uint32_t code, at; int64_t is; } Instr;
typedef struct { char name[65]; uint32_t temps; Instr *code; } Method;
typedef struct { const Instr *next; Value *temps; } Frame;

enum { METHODS = 65, INSTRS = 100000, VARS = 64, WORDS = 1 << 20, FRAMES = 16384 };
static Method methods[METHODS];
static Instr instrs[INSTRS];
static Value vars[VARS], words[WORDS];
static Frame frames[FRAMES];

static void fault(const char *what) {
    fprintf(stderr, "interpreter: %s\n", what);
    exit(1);
}

static uint32_t place(const char *const *texts, const char *text) {
    for (uint32_t n = 0; texts[n]; n++)
        if (!strcmp(texts[n], text)) return n;
    fault(text);
    return 0;
}

/* Reads the listing, and answers where the code of the body begins. */
static const Instr *read_listing(FILE *in) {
    char line[1000], word[100], operand[100];
    const Instr *body = NULL;
    uint32_t made = 0, known = 0, number;
    while (fgets(line, sizeof line, in)) {
        operand[0] = 0;
        if (sscanf(line, "method %64s %u", word, &number) == 2) {
            if (known == METHODS) fault("too many methods");
            strcpy(methods[known].name, word);
            methods[known].temps = number;
            methods[known++].code = instrs + made;
        } else if (sscanf(line, "body %u", &number) == 1) {
            body = instrs + made;
        } else if (sscanf(line, "%u %99s %99s", &number, word, operand) >= 2) {
            if (made == INSTRS) fault("too many instructions");
            Instr *i = instrs + made++;
            i->code = place(codes, word);
            if (i->code == PUSH_INT) i->is = strtoll(operand, NULL, 10);
            else if (i->code == PUSH_BOOL) i->is = !strcmp(operand, "true");
            else if (i->code == OPER) i->at = place(ops, operand);
            else if (i->code == CALL) i->is = (int64_t)strdup(operand);
            else i->at = (uint32_t)strtoul(operand, NULL, 10);
        }
    }
    for (Instr *i = instrs; i < instrs + made; i++)
        if (i->code == CALL) {
            while (i->at < known && strcmp(methods[i->at].name, (char *)i->is)) i->at++;
            if (i->at == known) fault("no such method");
        }
    if (!body) fault("no body");
    return body;
}

static void write_value(Value v) {
    if (v.tag == NIL) printf("nil\n");
    else if (v.tag == BOOL) printf(v.is ? "true\n" : "false\n");
    else printf("%lld\n", (long long)v.is);
}

static Value operate(uint32_t op, Value a, Value b) {
    Value v = {INT, 0};
    if (op == SAME || op == DIFFERS) {
        v.tag = BOOL;
        v.is = (a.tag == b.tag && a.is == b.is) == (op == SAME);
        return v;
    }
    if (a.tag == NIL || b.tag == NIL) fault("NilOperand");
    switch (op) {
    case ADD: if (__builtin_add_overflow(a.is, b.is, &v.is)) fault("Overflow"); return v;
    case SUB: if (__builtin_sub_overflow(a.is, b.is, &v.is)) fault("Overflow"); return v;
    case MUL: if (__builtin_mul_overflow(a.is, b.is, &v.is)) fault("Overflow"); return v;
    case DIV:
        if (b.is == 0) fault("ZeroDivisor");
        if (a.is == INT64_MIN && b.is == -1) fault("Overflow");
        v.is = a.is / b.is;
        return v;
    case REM:
        if (b.is == 0) fault("ZeroDivisor");
        v.is = b.is == -1 ? 0 : a.is % b.is;
        return v;
    case NEG: if (__builtin_sub_overflow((int64_t)0, b.is, &v.is)) fault("Overflow"); return v;
    default: break;
    }
    v.tag = BOOL;
    switch (op) {
    case LESS: v.is = a.is < b.is; break;
    case LESS_EQ: v.is = a.is <= b.is; break;
    case MORE: v.is = a.is > b.is; break;
    case MORE_EQ: v.is = a.is >= b.is; break;
    case AND: v.is = a.is && b.is; break;
    case OR: v.is = a.is || b.is; break;
    case NOT: v.is = !b.is; break;
    }
    return v;
}

static void run(const Instr *next) {
    /* The operands grow upward from `top`, which is the first free word, and a method's temps are the operands of its call. */
    Value *top = words, *temps = words;
    Frame *frame = frames;
    memset(vars, 0, sizeof vars);
    for (;;) {
        const Instr *i = next++;
        switch (i->code) {
        case PUSH_INT: *top++ = (Value){INT, i->is}; break;
        case PUSH_BOOL: *top++ = (Value){BOOL, i->is}; break;
        case PUSH_NIL: *top++ = (Value){NIL, 0}; break;
        case JUMP: next += (int64_t)i->is; break;
        case LOAD_I: STEP; *top++ = vars[i->at]; break;
        case LOAD_T: STEP; *top++ = temps[i->at]; break;
        case STORE_I: STEP; vars[i->at] = *--top; break;
        case STORE_T: STEP; temps[i->at] = *--top; break;
        case OPER:
            STEP;
            if (i->at == NEG || i->at == NOT) top[-1] = operate(i->at, top[-1], top[-1]);
            else top--, top[-1] = operate(i->at, top[-1], top[0]);
            break;
        case POP: STEP; top--; break;
        case BRANCH:
            STEP;
            top--;
            if (top->tag != BOOL) fault("NilOperand");
            if (!top->is) next += (int64_t)i->is;
            break;
        case LOOP: STEP; break;
        case CALL:
            STEP;
            if (frame == frames + FRAMES || top > words + WORDS - 200) fault("too deep");
            *frame++ = (Frame){next, temps};
            temps = top - methods[i->at].temps;
            next = methods[i->at].code;
            break;
        case RET: {
            STEP;
            Value v = top[-1];
            top = temps;
            *top++ = v;
            next = (--frame)->next;
            temps = frame->temps;
            break;
        }
        case WRITE: write_value(*--top); break;
        default: return;
        }
    }
}

static double now(clockid_t which) {
    struct timespec t;
    clock_gettime(which, &t);
    return t.tv_sec + t.tv_nsec / 1e9;
}

int main(int argc, char **argv) {
    if (argc != 2) return 64;
    FILE *in = fopen(argv[1], "r");
    if (!in) fault("no listing");
    const Instr *body = read_listing(in);
    /* Jumps and branches are told from the place behind them. */
    const Instr *first = instrs;
    for (const Instr *i = instrs; i < instrs + INSTRS; i++) {
        for (uint32_t m = 0; m < METHODS; m++)
            if (methods[m].code == i) first = i;
        if (i == body) first = i;
        if (i->code == JUMP || i->code == BRANCH) ((Instr *)i)->is = (first + i->at) - (i + 1);
    }
    double clock = now(CLOCK_MONOTONIC), used = now(CLOCK_PROCESS_CPUTIME_ID);
    run(body);
    clock = now(CLOCK_MONOTONIC) - clock;
    used = now(CLOCK_PROCESS_CPUTIME_ID) - used;
#ifdef COUNT
    fprintf(stderr, "%ld\n", count);
#else
    fprintf(stderr, "%.9f %.9f\n", clock, used);
#endif
    return 0;
}
