/* What a lock is tried by, for a program to include behind it: each hart takes the lock, adds 1 to a counter, and puts
   out what it wrote. */
int main(unsigned hart, unsigned harts)
{
#ifdef MOST_HARTS
    if (hart >= MOST_HARTS)
        return 0;
#endif
    lock(hart);
    unsigned mine = ++counter;
    unlock(hart);
    put_out(mine);
    return 0;
}
