/* How far apart a and b are. */
int distance(int a, int b)
{
    if (a > b)
        return b - a;
    return a - b;
}
