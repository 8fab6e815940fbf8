#include <assert.h>
extern int __mark(int);

// The same, from 0 on.
int f(int n) {
    int i = 0;
    int s = 0;
    while (__mark(42) & (i < n)) {
        i++;
        s += i;
    }
    return s;
}
