/* Sixty-four drawn words, sorted by insertion. */
unsigned body(unsigned *words)
{
    unsigned drawn = 1;
    for (int place = 0; place < 64; place++) {
        drawn = drawn * 5 + 12345;
        words[place] = drawn >> 3;
    }
    for (int place = 1; place < 64; place++) {
        unsigned word = words[place];
        int to = place;
        while (to > 0 && words[to - 1] > word) {
            words[to] = words[to - 1];
            to--;
        }
        words[to] = word;
    }
    return words[0];
}
