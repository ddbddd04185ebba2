// Trend Micro's own library behind three C functions.
#include <cstring>
#include <tlsh.h>

// The digest of the input as 70 characters and a zero, or 0 where the library gives none.
extern "C" int judge_digest(const unsigned char *input, unsigned int length, char *text)
{
    Tlsh hash;
    hash.final(input, length);
    hash.getHash(text, TLSH_STRING_BUFFER_LEN);
    return std::strlen(text) == TLSH_STRING_LEN;
}

// The text read and written again, or 0 where it is not read.
extern "C" int judge_rewrite(const char *from, char *text)
{
    Tlsh hash;
    if (hash.fromTlshStr(from) != 0)
        return 0;
    hash.getHash(text, TLSH_STRING_BUFFER_LEN);
    return std::strlen(text) == TLSH_STRING_LEN;
}

// The distance of the digests of two texts, or -1 where one of them is not read.
extern "C" int judge_distance(const char *one, const char *other)
{
    Tlsh a, b;
    if (a.fromTlshStr(one) != 0 || b.fromTlshStr(other) != 0)
        return -1;
    return a.totalDiff(&b);
}
