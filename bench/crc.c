/* The CRC-32 of 1,024 bytes, bit by bit. */
unsigned body(unsigned char *data)
{
    unsigned value = 0xFFFFFFFF;
    for (int place = 0; place < 1024; place++) {
        value ^= data[place];
        for (int bit = 0; bit < 8; bit++)
            value = value & 1 ? value >> 1 ^ 0xEDB88320 : value >> 1;
    }
    return value;
}
