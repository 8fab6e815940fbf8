/* The sum of 0 to n - 1, for n of at least 0. */
int sum(int n)
{
    int s = 0;
    while (n != 0) {
        n--;
        s += n;
    }
    return s;
}
