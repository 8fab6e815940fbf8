/* The sum of 0 to n - 1, for n of at least 0. */
int sum(int n)
{
    int s = 0;
    for (int i = 0; i != n; i++)
        s += i;
    return s;
}
