/* A routine whose values move between registers, and one that is inlined into it. */

static inline int lowered(int value, int limit) {
    int over = value - limit;
    if (over > 0)
        value = limit + over / 3;
    return value;
}

__attribute__((noinline)) int total(const int *values, int count) {
    int sum = 0;
    for (int i = 0; i < count; i++)
        sum += lowered(values[i], 100);
    return sum;
}

int main(int count, char **words) {
    int values[3] = {count, 70, words != 0};
    return total(values, 3);
}
