#include "texts.h"

#include "logs.h"
#include "random.h"

/* ---- Known ------------------------------------------------------------------ */

#define TEXT(bytes) (const uint8_t *)(bytes), sizeof(bytes) - 1
#define LINE(bytes) bytes, sizeof(bytes) - 1

const struct known_text known_texts[] = {
    {"sample", TEXT("pool 1\n+24\n+24\n+5000\n-4096\n+10\n+20\n-4100\n"), 0},
    {"start-alone", TEXT("pool 1\n"), 0},
    {"start-of-16", TEXT("pool 16\n"), 0},
    {"least-numbers", TEXT("pool 9\n+0\n-0\n"), 0},
    {"largest-numbers", TEXT("pool 10\n+4294967295\n-4294967295\n"), 0},

    /* nothing, and the ends of texts */
    {"empty", TEXT(""), 1},
    {"newline-alone", TEXT("\n"), 1},
    {"newlines", TEXT("\n\n\n"), 1},
    {"start-without-newline", TEXT("pool 1"), 1},
    {"start-of-16-without-newline", TEXT("pool 16"), 1},
    {"line-without-newline", TEXT("pool 1\n+24"), 2},
    {"sign-at-the-end", TEXT("pool 1\n+24\n+"), 3},
    {"last-line-without-newline", TEXT("pool 1\n+24\n-4096"), 3},
    {"empty-line-at-the-end", TEXT("pool 1\n+24\n\n"), 3},
    {"zero-byte-at-the-end", TEXT("pool 1\n+24\n\0"), 3},
    {"zero-byte-for-the-last-newline", TEXT("pool 1\n+24\0"), 2},
    {"carriage-returns", TEXT("pool 1\r\n+24\r\n"), 1},

    /* turns */
    {"no-start", TEXT("+24\n-4096\n"), 1},
    {"start-twice", TEXT("pool 1\npool 1\n"), 2},
    {"start-last", TEXT("+24\npool 1\n"), 1},
    {"empty-line-before-start", TEXT("\npool 1\n"), 1},
    {"two-bad-lines", TEXT("pool 1\n+24\n+x\n-y\n"), 3},
    {"two-starts-in-a-line", TEXT("pool 1pool 1\n"), 1},
    {"two-calls-in-a-line", TEXT("pool 1\n+24-4096\n"), 2},
    {"a-replay's-lines", TEXT("pool 1\nreserve 24 at 4096 size 24\n"), 2},
    {"a-log", TEXT("\1\0\1\1\4\0\0"), 1},
};

const size_t known_text_count = COUNT(known_texts);

const struct known_line bad_lines[] = {
    {"empty", LINE("\n")},
    {"start", LINE("pool 1\n")},
    {"needless-zeros", LINE("+007\n")},
    {"needless-zero", LINE("-01\n")},
    {"two-zeros", LINE("+00\n")},
    {"zeros-before-the-largest", LINE("-04294967295\n")},
    {"one-too-large", LINE("+4294967296\n")},
    {"release-one-too-large", LINE("-4294967296\n")},
    {"ten-nines", LINE("+9999999999\n")},
    {"2-to-the-33", LINE("+8589934592\n")},
    {"eleven-digits", LINE("-10000000000\n")},
    {"2-to-the-64", LINE("+18446744073709551616\n")},
    {"2-to-the-64-and-24", LINE("+18446744073709551640\n")},
    {"less-than-2-to-the-64", LINE("+18446744073709551615\n")},
    {"twenty-nines", LINE("-99999999999999999999\n")},
    {"sixty-digits", LINE("+111111111111111111111111111111111111111111111111111111111111\n")},
    {"two-plus", LINE("++1\n")},
    {"plus-minus", LINE("+-1\n")},
    {"minus-plus", LINE("-+1\n")},
    {"plus-alone", LINE("+\n")},
    {"minus-alone", LINE("-\n")},
    {"number-alone", LINE("24\n")},
    {"blank-behind-sign", LINE("+ 1\n")},
    {"blank-behind-number", LINE("+1 \n")},
    {"blank-before-sign", LINE(" +1\n")},
    {"blank-alone", LINE(" \n")},
    {"tab-behind-sign", LINE("+\t1\n")},
    {"tab-behind-number", LINE("-1\t\n")},
    {"carriage-return", LINE("+1\r\n")},
    {"carriage-return-for-newline", LINE("+1\r+2\n")},
    {"zero-byte-alone", LINE("\0\n")},
    {"zero-byte-behind-sign", LINE("+\0" "1\n")},
    {"zero-byte-behind-number", LINE("+1\0\n")},
    {"zero-byte-for-newline", LINE("+1\0+2\n")},
    {"byte-255-behind-number", LINE("-1\xFF\n")},
    {"byte-177-for-a-digit", LINE("+\xB1\n")},
    {"byte-171-for-plus", LINE("\xAB" "1\n")},
    {"colon-for-a-digit", LINE("+1:\n")},
    {"slash-for-a-digit", LINE("+/1\n")},
    {"hexadecimal", LINE("+0x10\n")},
    {"letter-for-a-digit", LINE("+1a\n")},
    {"comma", LINE("+1,000\n")},
    {"comma-for-plus", LINE(",1\n")},
    {"star-for-plus", LINE("*1\n")},
    {"point", LINE("+1.0\n")},
    {"exponent", LINE("+1e3\n")},
    {"resize", LINE("*4096 24\n")},
    {"resize-as-replayed", LINE("resize 4096 24\n")},
    {"two-numbers", LINE("+1 2\n")},
    {"reserve-in-words", LINE("reserve 24\n")},
    {"end-in-words", LINE("end\n")},
    {"comment", LINE("# +1\n")},
};

const size_t bad_line_count = COUNT(bad_lines);

const struct known_line bad_first_lines[] = {
    {"pool-0", LINE("pool 0\n")},
    {"pool-17", LINE("pool 17\n")},
    {"pool-18", LINE("pool 18\n")},
    {"pool-100", LINE("pool 100\n")},
    {"pool-256", LINE("pool 256\n")},
    {"pool-257", LINE("pool 257\n")},
    {"pool-4294967295", LINE("pool 4294967295\n")},
    {"pool-4294967297", LINE("pool 4294967297\n")},
    {"pool-2-to-the-64-and-1", LINE("pool 18446744073709551617\n")},
    {"pool-of-no-number", LINE("pool \n")},
    {"pool-and-newline", LINE("pool\n")},
    {"pool-01", LINE("pool 01\n")},
    {"pool-00", LINE("pool 00\n")},
    {"pool-of-plus-1", LINE("pool +1\n")},
    {"pool-of-minus-1", LINE("pool -1\n")},
    {"pool-1-and-blank", LINE("pool 1 \n")},
    {"blank-and-pool", LINE(" pool 1\n")},
    {"pool-and-two-blanks", LINE("pool  1\n")},
    {"pool-and-tab", LINE("pool\t1\n")},
    {"pool-without-blank", LINE("pool1\n")},
    {"pool-in-capitals", LINE("POOL 1\n")},
    {"pool-with-a-capital", LINE("Pool 1\n")},
    {"poo", LINE("poo 1\n")},
    {"pools", LINE("pools 1\n")},
    {"pool-with-carriage-return", LINE("pool 1\r\n")},
    {"pool-with-zero-byte", LINE("pool 1\0\n")},
    {"pool-behind-zero-byte", LINE("\0pool 1\n")},
    {"pool-behind-byte-order-mark", LINE("\xEF\xBB\xBFpool 1\n")},
    {"pool-behind-high-bytes", LINE("\xF0\xEF\xEF\xEC 1\n")},
    {"pool-with-text-behind", LINE("pool 1 chunk\n")},
    {"empty", LINE("\n")},
    {"reserve", LINE("+24\n")},
    {"release", LINE("-4096\n")},
    {"number-alone", LINE("1\n")},
};

const size_t bad_first_line_count = COUNT(bad_first_lines);

/* ---- At random ---------------------------------------------------------------- */

uint64_t draw_number(unsigned digits)
{
    uint64_t least = 1, greatest;

    for (unsigned i = 1; i < digits; i++)
        least *= 10;
    greatest = digits < 10 ? 10 * least - 1 : UINT32_MAX;
    if (digits == 1)
        least = 0;
    switch (rng_below(&rng, 8)) {
    case 0:
        return least;
    case 1:
        return greatest;
    default:
        return least + rng_next(&rng) % (greatest - least + 1);
    }
}

static struct entry draw_entry(void)
{
    struct entry entry = {rng_below(&rng, 2) ? TAG_RESERVE : TAG_RELEASE,
                          {draw_number(1 + rng_below(&rng, 10)), 0}};

    return entry;
}

static struct entry draw_start(void)
{
    struct entry entry = {TAG_START, {1 + rng_below(&rng, MAX_CHUNKS), 0}};

    return entry;
}

void draw_text(struct writing *text, unsigned lines)
{
    struct entry entry = draw_start();

    text->length = 0;
    write_line(text, &entry);
    for (unsigned i = 1; i < lines; i++) {
        entry = draw_entry();
        write_line(text, &entry);
    }
}

void draw_log(struct writing *log, unsigned fields)
{
    struct entry entry = draw_start(), end = {TAG_END, {0, 0}};

    log->length = 0;
    write_field(log, &entry);
    for (unsigned i = 0; i < fields; i++) {
        entry = draw_entry();
        write_field(log, &entry);
    }
    write_field(log, &end);
}
