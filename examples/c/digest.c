/* The doc examples of fast-tlsh's generate.rs through the C entry: each input, its options, and the digest it must give; then the
 * distance of the first two digests, from their texts and from what was read of them. */
#include "saltcurtain.h"
#include <stdio.h>
#include <string.h>

int main(void)
{
    static const struct { uint32_t options; const char *input, *text; } examples[] = {
        {0, "Lovak won the squad prize cup for sixty big jumps.",
         "T14A90024954691E114404124180D942C1450F8423775ADE1510211420456593621A8173"},
        {4, "The quick brown fox jumps over the lazy dog.",
         "T19E90024A21181294648A1888438D94B292C8C510612114116430600218082219C98551"},
        {8, "ABCDEFGHIJKLMNOPQRSTABCDEFGHIJKLMNOPQRSTABCDEFGHIJ",
         "T1609000080C838F2A0F2C82C0ECA282F33808838B00CE0300228C2F80C8800E08800000"},
        {16, "ABCDEABCDEABCDEABCDEABCDEABCDEABCDEABCDEABCDEABCDE",
         "T14590440C330003C00C0033000000C300F000C00300C030000000C3000000000000C000"},
    };
    int wrong = 0;
    for (size_t i = 0; i < sizeof examples / sizeof *examples; i++) {
        char text[SALTCURTAIN_TEXT_128 + 1] = "";
        uint32_t number = saltcurtain_digest(128, examples[i].options, (const uint8_t *)examples[i].input, strlen(examples[i].input),
                                             (uint8_t *)text, SALTCURTAIN_TEXT_128);
        printf("%u %s\n", number, text);
        wrong |= number != 0 || strcmp(text, examples[i].text) != 0;
    }
    const uint8_t *one = (const uint8_t *)examples[0].text, *other = (const uint8_t *)examples[1].text;
    struct saltcurtain_distance d = saltcurtain_distance(128, one, SALTCURTAIN_TEXT_128, 128, other, SALTCURTAIN_TEXT_128);
    struct saltcurtain_read a = saltcurtain_read(128, one, SALTCURTAIN_TEXT_128);
    struct saltcurtain_read b = saltcurtain_read(128, other, SALTCURTAIN_TEXT_128);
    struct saltcurtain_distance e = saltcurtain_distance_read(a.digest.head, a.digest.body, b.digest.head, b.digest.body);
    printf("%u %u\n", d.number, d.distance);
    wrong |= d.number != 0 || d.distance != 146 || a.number != 0 || b.number != 0 || e.number != 0 || e.distance != 146;
    return wrong;
}
