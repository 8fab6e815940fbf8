/* How many bits it takes to write n. */
int bits(int n)
{
    int count = 0;
    int power = 1;
    while (power <= n) {
        power *= 2;
        count++;
    }
    return count;
}
