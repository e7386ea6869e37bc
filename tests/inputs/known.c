#include "known.h"

#include <string.h>

#define START "\x01\x00\x01\x01"
#define RESERVE "\x02\x00\x04"
#define RELEASE "\x03\x00\x04"
#define END "\x04\x00\x00"
#define RESIZE "\x08\x00\x08"
#define LOG(fields) (const uint8_t *)(fields), sizeof(fields) - 1

#define RESERVE_24 RESERVE "\x00\x00\x00\x18"
#define RESERVE_320 RESERVE "\x00\x00\x01\x40"
#define RESERVE_3072 RESERVE "\x00\x00\x0C\x00"
#define RESERVE_511_PAGES RESERVE "\x00\x1F\xF0\x00"
#define RESERVE_5000 RESERVE "\x00\x00\x13\x88"
#define AT_4096 "\x00\x00\x10\x00"
#define SERVED_24 "pool 1\nreserve 24 at 4096 size 24\n"

const struct known_log known_logs[] = {
    {"sample",
     LOG(START RESERVE_24 RESERVE_24 RESERVE "\x00\x00\x13\x88" RELEASE "\x00\x00\x10\x00"
         RESERVE "\x00\x00\x00\x0A" RESERVE "\x00\x00\x00\x14" RELEASE "\x00\x00\x10\x04" END),
     0, 0,
     "pool 1\n"
     "reserve 24 at 4096 size 24\n"
     "reserve 24 at 4120 size 24\n"
     "reserve 5000 at 8192 size 8192\n"
     "release 4096 ok\n"
     "reserve 10 at 16384 size 16\n"
     "reserve 20 at 4096 size 24\n"
     "release 4100 refused 5\n"
     "live 4 free pages 507\n"},

    /* nothing, and less than a header */
    {"empty", LOG(""), 8, 0, "log refused 8 at 0\n"},
    {"tag-alone", LOG("\x01"), 8, 0, "log refused 8 at 0\n"},
    {"unknown-tag-alone", LOG("\xFF"), 8, 0, "log refused 8 at 0\n"},
    {"two-bytes", LOG("\x01\x00"), 8, 0, "log refused 8 at 0\n"},
    {"two-unknown-bytes", LOG("\xFF\xFF"), 8, 0, "log refused 8 at 0\n"},

    /* the start */
    {"start-without-count", LOG("\x01\x00\x01"), 8, 0, "log refused 8 at 0\n"},
    {"start-count-0", LOG("\x01\x00\x01\x00" END), 9, 0, "log refused 9 at 0\n"},
    {"start-count-17", LOG("\x01\x00\x01\x11" END), 9, 0, "log refused 9 at 0\n"},
    {"start-count-2", LOG("\x01\x00\x01\x02" END), 9, 0, "log refused 9 at 0\n"},
    {"start-count-16", LOG("\x01\x00\x01\x10" END), 9, 0, "log refused 9 at 0\n"},
    {"start-count-255", LOG("\x01\x00\x01\xFF" END), 9, 0, "log refused 9 at 0\n"},
    {"start-length-0", LOG("\x01\x00\x00" END), 9, 0, "log refused 9 at 0\n"},
    {"start-length-2", LOG("\x01\x00\x02\x00\x01" END), 9, 0, "log refused 9 at 0\n"},
    {"start-length-low-byte-first", LOG("\x01\x01\x00\x01" END), 9, 0, "log refused 9 at 0\n"},
    {"start-length-257", LOG("\x01\x01\x01\x01" END), 9, 0, "log refused 9 at 0\n"},
    {"reserve-first", LOG(RESERVE_24 START END), 9, 0, "log refused 9 at 0\n"},
    {"release-first", LOG(RELEASE "\x00\x00\x10\x00" START END), 9, 0, "log refused 9 at 0\n"},
    {"end-first", LOG(END), 9, 0, "log refused 9 at 0\n"},
    {"unknown-first", LOG("\x05\x00\x00" START END), 9, 0, "log refused 9 at 0\n"},
    {"zeros", LOG("\x00\x00\x00\x00\x00\x00\x00"), 9, 0, "log refused 9 at 0\n"},

    /* behind the start */
    {"start-alone", LOG(START), 8, 4, "pool 1\nlog refused 8 at 4\n"},
    {"start-and-end", LOG(START END), 0, 0, "pool 1\nlive 0 free pages 511\n"},
    {"unknown-byte-behind-start", LOG(START "\xFF"), 8, 4, "pool 1\nlog refused 8 at 4\n"},
    {"end-of-two-bytes", LOG(START "\x04\x00"), 8, 4, "pool 1\nlog refused 8 at 4\n"},
    {"second-start", LOG(START START END), 9, 4, "pool 1\nlog refused 9 at 4\n"},
    {"second-start-without-count", LOG(START "\x01\x00\x01"), 9, 4, "pool 1\nlog refused 9 at 4\n"},
    {"tag-0", LOG(START "\x00\x00\x00" END), 9, 4, "pool 1\nlog refused 9 at 4\n"},
    {"tag-5", LOG(START "\x05\x00\x00" END), 9, 4, "pool 1\nlog refused 9 at 4\n"},
    {"tag-130", LOG(START "\x82\x00\x04\x00\x00\x00\x18" END), 9, 4,
     "pool 1\nlog refused 9 at 4\n"},
    {"tag-5-without-body", LOG(START "\x05\x00\x04"), 9, 4, "pool 1\nlog refused 9 at 4\n"},

    /* reserve and release */
    {"reserve-without-body", LOG(START RESERVE), 8, 4, "pool 1\nlog refused 8 at 4\n"},
    {"reserve-of-three-bytes", LOG(START RESERVE "\x00\x00\x18"), 8, 4,
     "pool 1\nlog refused 8 at 4\n"},
    {"reserve-alone", LOG(START RESERVE_24), 8, 11, SERVED_24 "log refused 8 at 11\n"},
    {"reserve-length-3", LOG(START "\x02\x00\x03\x00\x00\x18" END), 9, 4,
     "pool 1\nlog refused 9 at 4\n"},
    {"reserve-length-5-without-body", LOG(START "\x02\x00\x05"), 9, 4,
     "pool 1\nlog refused 9 at 4\n"},
    {"reserve-length-0", LOG(START "\x02\x00\x00" END), 9, 4, "pool 1\nlog refused 9 at 4\n"},
    {"reserve-length-260", LOG(START "\x02\x01\x04\x00\x00\x00\x18" END), 9, 4,
     "pool 1\nlog refused 9 at 4\n"},
    {"reserve-length-low-byte-first", LOG(START "\x02\x04\x00\x00\x00\x00\x18" END), 9, 4,
     "pool 1\nlog refused 9 at 4\n"},
    {"release-without-body", LOG(START RESERVE_24 RELEASE), 8, 11,
     SERVED_24 "log refused 8 at 11\n"},
    {"release-of-three-bytes", LOG(START RESERVE_24 RELEASE "\x00\x00\x10"), 8, 11,
     SERVED_24 "log refused 8 at 11\n"},
    {"release-length-8", LOG(START RESERVE_24 "\x03\x00\x08\x00\x00\x00\x00\x00\x00\x10\x00" END),
     9, 11, SERVED_24 "log refused 9 at 11\n"},
    {"release-twice",
     LOG(START RESERVE_24 RELEASE "\x00\x00\x10\x00" RELEASE "\x00\x00\x10\x00" END), 0, 0,
     SERVED_24 "release 4096 ok\nrelease 4096 refused 6\nlive 0 free pages 510\n"},
    {"release-of-place-0", LOG(START RELEASE "\x00\x00\x00\x00" END), 0, 0,
     "pool 1\nrelease 0 refused 5\nlive 0 free pages 511\n"},
    {"release-behind-pool", LOG(START RELEASE "\x00\x20\x10\x00" END), 0, 0,
     "pool 1\nrelease 2101248 refused 5\nlive 0 free pages 511\n"},
    {"largest-numbers", LOG(START RESERVE "\xFF\xFF\xFF\xFF" RELEASE "\xFF\xFF\xFF\xFF" END), 0, 0,
     "pool 1\nreserve 4294967295 refused 3\nrelease 4294967295 refused 5\n"
     "live 0 free pages 511\n"},
    {"size-0", LOG(START RESERVE "\x00\x00\x00\x00" END), 0, 0,
     "pool 1\nreserve 0 at 4096 size 8\nlive 1 free pages 510\n"},
    {"whole-chunk", LOG(START RESERVE "\x00\x1F\xF0\x00" RESERVE_24 RESERVE "\x00\x1F\xF0\x01" END),
     0, 0,
     "pool 1\nreserve 2093056 at 4096 size 2093056\nreserve 24 refused 4\n"
     "reserve 2093057 refused 3\nlive 1 free pages 0\n"},

    /* sweeps: one page, five and three, then big tables */
    {"morning-of-drops-then-a-big-table",
     LOG(START RESERVE_24 RESERVE_320 RESERVE_3072 RELEASE "\x00\x00\x20\x00"
         RELEASE "\x00\x00\x10\x00" RELEASE "\x00\x00\x70\x00" RESERVE_511_PAGES END),
     0, 0,
     SERVED_24
     "reserve 320 at 8192 size 320\n"
     "reserve 3072 at 28672 size 3072\n"
     "release 8192 ok\n"
     "release 4096 ok\n"
     "release 28672 ok\n"
     "reserve 2093056 at 4096 size 2093056\n"
     "live 1 free pages 0\n"},
    {"morning-of-drops-but-one-row",
     LOG(START RESERVE_24 RESERVE_320 RESERVE_3072 RELEASE "\x00\x00\x20\x00"
         RELEASE "\x00\x00\x70\x00" RESERVE_511_PAGES RESERVE_320 END),
     0, 0,
     SERVED_24
     "reserve 320 at 8192 size 320\n"
     "reserve 3072 at 28672 size 3072\n"
     "release 8192 ok\n"
     "release 28672 ok\n"
     "reserve 2093056 refused 4\n"
     "reserve 320 at 8192 size 320\n"
     "live 2 free pages 502\n"},
    /* what a replay remembers of the run at 4096 goes with it */
    {"no-slot-of-a-swept-run",
     LOG(START RESERVE_24 RESERVE "\x00\x1F\xE0\x00" RELEASE "\x00\x00\x10\x00"
         RESERVE "\x00\x00\x10\x00" RESERVE_24 RELEASE "\x00\x00\x10\x00" RESERVE_320
         RESERVE_24 END),
     0, 0,
     SERVED_24
     "reserve 2088960 at 8192 size 2088960\n"
     "release 4096 ok\n"
     "reserve 4096 at 4096 size 4096\n"
     "reserve 24 refused 4\n"
     "release 4096 ok\n"
     "reserve 320 refused 4\n"
     "reserve 24 at 4096 size 24\n"
     "live 2 free pages 0\n"},

    /* resize: the sample (RULES 12.6), that of the header, and bad fields */
    {"sample-of-resizes",
     LOG(START RESERVE_5000 RESERVE_5000 RESERVE_24 RESIZE AT_4096 "\x00\x00\x20\x00"
         RESIZE AT_4096 "\x00\x00\x10\x00" RESIZE AT_4096 "\x00\x00\x1F\x40"
         RESIZE AT_4096 "\x00\x00\x20\x01" RESIZE "\x00\x00\x50\x00\x00\x00\x00\x11"
         RESIZE "\x00\x00\x50\x00\x00\x1F\xF0\x01" RESIZE "\x00\x00\x50\x01\x00\x1F\xF0\x01"
         RESIZE "\x00\x00\x50\x00\x00\x00\x00\x19" END),
     0, 0,
     "pool 1\n"
     "reserve 5000 at 4096 size 8192\n"
     "reserve 5000 at 12288 size 8192\n"
     "reserve 24 at 20480 size 24\n"
     "resize 4096 8192 at 4096 size 8192 kept\n"
     "resize 4096 4096 at 4096 size 4096 kept\n"
     "resize 4096 8000 at 4096 size 8192 kept\n"
     "resize 4096 8193 at 24576 size 12288 moved\n"
     "resize 20480 17 at 20480 size 24 kept\n"
     "resize 20480 2093057 refused 3\n"
     "resize 20481 2093057 refused 5\n"
     "resize 20480 25 at 4096 size 32 moved\n"
     "live 3 free pages 504\n"},
    {"header-of-the-library",
     LOG(START RESERVE_24 RESERVE "\x00\x2D\xC6\xC0" RESIZE AT_4096 "\x00\x00\x00\x14"
         RESIZE AT_4096 "\x00\x00\x13\x88" RESIZE AT_4096 "\x00\x00\x00\x0A"
         RELEASE "\x00\x00\x20\x00" RELEASE "\x00\x00\x10\x04" END),
     0, 0,
     SERVED_24
     "reserve 3000000 refused 3\n"
     "resize 4096 20 at 4096 size 24 kept\n"
     "resize 4096 5000 at 8192 size 8192 moved\n"
     "resize 4096 10 refused 6\n"
     "release 8192 ok\n"
     "release 4100 refused 5\n"
     "live 0 free pages 510\n"},
    /* the old block is live while another is sought, and a run does not grow into an empty one */
    {"resize-without-room",
     LOG(START RESERVE_24 RESERVE "\x00\x1F\xE0\x00" RESIZE AT_4096 "\x00\x00\x00\x20"
         RESIZE "\x00\x00\x20\x00\x00\x00\x00\x20" RESIZE "\x00\x00\x20\x00\x00\x1F\xF0\x00"
         RESIZE "\x00\x00\x20\x00\x00\x1F\xD0\x00" RESIZE AT_4096 "\x00\x00\x00\x20" END),
     0, 0,
     SERVED_24
     "reserve 2088960 at 8192 size 2088960\n"
     "resize 4096 32 refused 4\n"
     "resize 8192 32 refused 4\n"
     "resize 8192 2093056 refused 4\n"
     "resize 8192 2084864 at 8192 size 2084864 kept\n"
     "resize 4096 32 at 2093056 size 32 moved\n"
     "live 2 free pages 0\n"},
    {"resize-that-sweeps",
     LOG(START RESERVE_5000 RESERVE_320 RESERVE "\x00\x1F\x80\x00" RELEASE "\x00\x00\x30\x00"
         RESIZE AT_4096 "\x00\x00\x30\x00" RESIZE "\x00\x00\x30\x00\x00\x00\x60\x00" RESERVE_320
         RESERVE_24 END),
     0, 0,
     "pool 1\n"
     "reserve 5000 at 4096 size 8192\n"
     "reserve 320 at 12288 size 320\n"
     "reserve 2064384 at 32768 size 2064384\n"
     "release 12288 ok\n"
     "resize 4096 12288 at 12288 size 12288 moved\n"
     "resize 12288 24576 refused 4\n"
     "reserve 320 refused 4\n"
     "reserve 24 at 4096 size 24\n"
     "live 3 free pages 3\n"},
    {"resize-first", LOG(RESIZE AT_4096 "\x00\x00\x00\x18" START END), 9, 0, "log refused 9 at 0\n"},
    {"resize-without-body", LOG(START RESERVE_24 RESIZE), 8, 11, SERVED_24 "log refused 8 at 11\n"},
    {"resize-without-size", LOG(START RESERVE_24 RESIZE AT_4096), 8, 11,
     SERVED_24 "log refused 8 at 11\n"},
    {"resize-of-seven-bytes", LOG(START RESERVE_24 RESIZE AT_4096 "\x00\x00\x20"), 8, 11,
     SERVED_24 "log refused 8 at 11\n"},
    {"resize-alone", LOG(START RESERVE_24 RESIZE AT_4096 "\x00\x00\x00\x18"), 8, 22,
     SERVED_24 "resize 4096 24 at 4096 size 24 kept\nlog refused 8 at 22\n"},
    {"resize-length-4", LOG(START RESERVE_24 "\x08\x00\x04" AT_4096 END), 9, 11,
     SERVED_24 "log refused 9 at 11\n"},
    {"resize-length-7", LOG(START RESERVE_24 "\x08\x00\x07" AT_4096 "\x00\x00\x18" END), 9, 11,
     SERVED_24 "log refused 9 at 11\n"},
    {"resize-length-9-without-body", LOG(START RESERVE_24 "\x08\x00\x09"), 9, 11,
     SERVED_24 "log refused 9 at 11\n"},
    {"resize-length-0", LOG(START "\x08\x00\x00" END), 9, 4, "pool 1\nlog refused 9 at 4\n"},
    {"resize-length-264", LOG(START RESERVE_24 "\x08\x01\x08" AT_4096 "\x00\x00\x00\x18" END), 9, 11,
     SERVED_24 "log refused 9 at 11\n"},
    {"resize-length-low-byte-first",
     LOG(START RESERVE_24 "\x08\x08\x00" AT_4096 "\x00\x00\x00\x18" END), 9, 11,
     SERVED_24 "log refused 9 at 11\n"},
    {"tag-136", LOG(START RESERVE_24 "\x88\x00\x08" AT_4096 "\x00\x00\x00\x18" END), 9, 11,
     SERVED_24 "log refused 9 at 11\n"},
    {"resize-after-end", LOG(START END RESIZE AT_4096 "\x00\x00\x00\x18"), 9, 7,
     "pool 1\nlog refused 9 at 7\n"},
    {"resize-of-the-largest-numbers", LOG(START RESIZE "\xFF\xFF\xFF\xFF\xFF\xFF\xFF\xFF" END), 0, 0,
     "pool 1\nresize 4294967295 4294967295 refused 5\nlive 0 free pages 511\n"},

    /* the end */
    {"end-length-1", LOG(START "\x04\x00\x01\x00"), 9, 4, "pool 1\nlog refused 9 at 4\n"},
    {"end-length-256", LOG(START "\x04\x01\x00"), 9, 4, "pool 1\nlog refused 9 at 4\n"},
    {"one-byte-after-end", LOG(START END "\x04"), 9, 7, "pool 1\nlog refused 9 at 7\n"},
    {"zero-byte-after-end", LOG(START END "\x00"), 9, 7, "pool 1\nlog refused 9 at 7\n"},
    {"two-bytes-after-end", LOG(START END "\x04\x00"), 9, 7, "pool 1\nlog refused 9 at 7\n"},
    {"second-end", LOG(START END END), 9, 7, "pool 1\nlog refused 9 at 7\n"},
    {"start-after-end", LOG(START RESERVE_24 END START END), 9, 14,
     SERVED_24 "log refused 9 at 14\n"},
    {"reserve-after-end", LOG(START END RESERVE_24), 9, 7, "pool 1\nlog refused 9 at 7\n"},
};

const struct known_log *known_log_named(const char *name)
{
    for (size_t i = 0; i < known_log_count; i++)
        if (strcmp(known_logs[i].name, name) == 0)
            return &known_logs[i];
    return NULL;
}

const size_t known_log_count = sizeof known_logs / sizeof known_logs[0];
