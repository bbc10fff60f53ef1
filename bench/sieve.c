/* The primes below 4,096, as the bytes that are left 0. */
unsigned body(unsigned char *marks)
{
    unsigned primes = 0;
    for (int place = 0; place < 4096; place++)
        marks[place] = 0;
    for (int number = 2; number < 4096; number++) {
        if (marks[number])
            continue;
        primes++;
        for (int other = number + number; other < 4096; other += number)
            marks[other] = 1;
    }
    return primes;
}
