/* Hot and cold parts: a function's addresses lie in more than one section. */

int external(int);
void sink(const void *);
__attribute__((cold, noinline)) void complain(int code) {
    int twice = code * 2;
    sink(&twice);
    external(twice);
}

#define RARE(condition) __builtin_expect(!!(condition), 0)

static inline int checked(int value, int limit) {
    if (RARE(value > limit)) {
        int over = value - limit;
        complain(over);
        complain(external(over));
        return limit;
    }
    return value;
}

int steps(int from, int to) {
    int at = from;
    while (at < to) {
        int step = checked(external(at), 10);
        if (RARE(step < 0)) {
            int kept = at;
            complain(step);
            at = external(kept);
            continue;
        }
        at += step + 1;
    }
    return at;
}

int both(int a, int b) {
    int left = checked(a, 100);
    int right = checked(b, 200);
    if (RARE(left == right)) {
        complain(left);
        return steps(left, right + 1);
    }
    return left * right;
}

int unused_by_all(int a) {
    int b = checked(a, 7);
    for (int i = 0; i < b; i++)
        b -= external(i);
    return b;
}
