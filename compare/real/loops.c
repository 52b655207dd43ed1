/* Loops, and variables that move between registers and the stack. */

int external(int);
void sink(const void *);

static inline int clamp(int value, int low, int high) {
    if (value < low)
        return low;
    if (value > high)
        return high;
    return value;
}

int sum_of(const int *numbers, int count) {
    int sum = 0;
    for (int i = 0; i < count; i++) {
        int doubled = numbers[i] * 2;
        if (doubled > 100) {
            int over = doubled - 100;
            sum += external(over);
        } else {
            sum += clamp(doubled, -50, 50);
        }
    }
    return sum;
}

int many_live(int a, int b, int c, int d) {
    int e = external(a), f = external(b), g = external(c), h = external(d);
    for (int round = 0; round < a; round++) {
        int t = e;
        e = clamp(f + round, 0, 1000);
        f = g ^ t;
        g = external(h + e);
        h = clamp(t - g, -1000, 0);
        if (h == f)
            sink(&h);
    }
    return e + f * g - h;
}

long gcd(long a, long b) {
    while (b != 0) {
        long rest = a % b;
        a = b;
        b = rest;
    }
    return a;
}

void fill(char *to, unsigned long count, char with) {
    unsigned long left = count;
    char *at = to;
    while (left--) {
        *at++ = with;
    }
    sink(to);
}
