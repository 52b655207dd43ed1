/* The entry, and what the other files call. Some functions are left uncalled
   so that a linker that collects sections drops them. */

int sum_of(const int *, int);
int many_live(int, int, int, int);
long gcd(long, long);
int both(int, int);

volatile int cell;
const void *volatile kept;

__attribute__((noinline)) int external(int value) {
    int before = cell;
    cell = value;
    return before ^ value;
}

__attribute__((noinline)) void sink(const void *at) { kept = at; }

void _start(void);
void _start(void) {
    static const int numbers[] = {1, 70, 3};
    int sum = sum_of(numbers, 3);
    sum += many_live(sum, 2, 3, 4);
    sum += both(sum, (int)gcd(sum, 12));
    cell = sum;
    for (;;)
        external(sum);
}
