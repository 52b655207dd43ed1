// Nested scopes, templates and inlined members.

extern "C" int external(int);
extern "C" void sink(const void *);

template <typename Number, int Size> struct Ring {
    Number items[Size];
    int head = 0;

    void push(Number item) {
        int at = head % Size;
        items[at] = item;
        head = at + 1;
    }

    Number largest() const {
        Number best = items[0];
        for (int i = 1; i < Size; i++) {
            Number one = items[i];
            if (one > best) {
                Number before = best;
                best = one;
                if (before < 0) {
                    int seen = external(static_cast<int>(before));
                    best += seen;
                }
            }
        }
        return best;
    }
};

struct Guard {
    int *counter;
    explicit Guard(int *c) : counter(c) { ++*counter; }
    ~Guard() { --*counter; }
};

namespace inner {
int nested(int depth) {
    int total = 0;
    Guard guard(&total);
    {
        int first = external(depth);
        for (int i = 0; i < first; i++) {
            int second = external(i + total);
            if (second & 1) {
                int third = second >> 1;
                total += third;
                for (int j = third; j > 0; j--) {
                    int fourth = j * third;
                    total -= external(fourth);
                }
            } else {
                Guard more(&second);
                total ^= second;
                sink(&more);
            }
        }
    }
    return total;
}
} // namespace inner

int rings(int count) {
    Ring<int, 8> small{};
    Ring<long, 5> wide{};
    for (int i = 0; i < count; i++) {
        small.push(external(i));
        wide.push(small.largest());
    }
    sink(&small);
    return small.largest() + static_cast<int>(wide.largest()) + inner::nested(count);
}

struct Shape {
    virtual int area(int scale) const = 0;
};

struct Box : Shape {
    int width = 3, height = 4;
    int area(int scale) const override {
        int w = width * scale, h = height * scale;
        return external(w) + external(h) + w * h;
    }
};

int areas(int count) {
    int sum = 0;
    for (int i = 0; i < count; i++) {
        Box box;
        box.width = i;
        sum += box.area(external(i));
    }
    return sum;
}
