/* Noise for desk: lines of scripts as they are, torn, spliced and spoilt, any bytes, and lines far too long. Nothing says what is due for it. */
#include <string.h>

#include "deskscripts.h"
#include "scripts.h"

enum { STOCK_SCRIPTS = 60, STOCK_ROOM = 1 << 20, STOCK_LINES = 8192, NOISE_ROOM = 1 << 16 };

/* The lines of some scripts, one after the other. */
static struct Stock {
    uint8_t bytes[STOCK_ROOM];
    const uint8_t *line[STOCK_LINES];
    size_t length[STOCK_LINES];
    unsigned count;
} stock;

static uint8_t noise[NOISE_ROOM];

/* Cuts what was written of the scripts into lines. */
static void cut_lines(size_t bytes) {
    for (size_t from = 0; from < bytes && stock.count < STOCK_LINES; stock.count++) {
        const uint8_t *end = memchr(stock.bytes + from, '\n', bytes - from);
        size_t length = end == NULL ? bytes - from : (size_t)(end - (stock.bytes + from));
        stock.line[stock.count] = stock.bytes + from;
        stock.length[stock.count] = length;
        from += length + 1;
    }
}

/* Draws the stock; false where there is no file to keep it in. */
static bool fill_stock(uint64_t seed) {
    static Desk desk;
    static Scribe scribe;
    FILE *in = tmpfile(), *out = tmpfile();
    if (in == NULL || out == NULL) return false;
    desk_start(&desk, out);
    start_scribe(&scribe, &desk, in, random_for(seed ^ 0x6E6F697365, 0));
    for (unsigned i = 0; i < STOCK_SCRIPTS; i++) write_random_script(&scribe);
    rewind(in);
    cut_lines(fread(stock.bytes, 1, STOCK_ROOM, in));
    fclose(in);
    fclose(out);
    return stock.count > 0;
}

/* Adds a part of a line of the stock to so many bytes of noise; returns how many there are then. */
static size_t add_part(size_t used, unsigned line, size_t from, size_t to) {
    if (to - from > NOISE_ROOM - used) to = from + (NOISE_ROOM - used);
    memcpy(noise + used, stock.line[line] + from, to - from);
    return used + (to - from);
}

/* A place in a line of the stock, from its front to its end. */
static size_t place_in(Random *random, unsigned line) {
    return random_below(random, (unsigned)stock.length[line] + 1);
}

/* Any bytes, of all values. */
static size_t add_any(Random *random, size_t used, size_t count) {
    for (; count > 0 && used < NOISE_ROOM; count--) noise[used++] = (uint8_t)random_next(random);
    return used;
}

/* A line that is too long, mostly a little: lines of the stock one behind the other. */
static size_t add_long(Random *random) {
    size_t used = 0, wanted = random_chance(random, 95) ? random_between(random, 490, 1500) : random_between(random, 1500, NOISE_ROOM - 1);
    if (random_chance(random, 20)) return add_any(random, 0, wanted);
    while (used < wanted) {
        unsigned line = random_below(random, stock.count);
        used = add_part(used, line, 0, stock.length[line]);
        if (used < NOISE_ROOM) noise[used++] = ' ';
    }
    return wanted;
}

/* Puts any bytes in place of a few. */
static size_t strike(Random *random, size_t used) {
    if (used == 0) return 0;
    for (unsigned n = random_between(random, 1, 3); n > 0; n--) noise[random_below(random, (unsigned)used)] = (uint8_t)random_next(random);
    return used;
}

/* Makes a line of noise from the one of the stock that is next, and another one; returns its length. */
static size_t make_line(Random *random, unsigned line) {
    unsigned sort = random_below(random, 100), other = random_below(random, stock.count);
    if (sort < 55) return add_part(0, line, 0, stock.length[line]);
    if (sort < 63) return add_part(0, line, 0, place_in(random, line));
    if (sort < 68) return add_part(0, line, place_in(random, line), stock.length[line]);
    if (sort < 80) return add_part(add_part(0, line, 0, place_in(random, line)), other, place_in(random, other), stock.length[other]);
    if (sort < 90) return strike(random, add_part(0, line, 0, stock.length[line]));
    if (sort < 97) return add_any(random, 0, random_below(random, 80));
    return sort < 99 ? add_long(random) : (memcpy(noise, "help", 4), 4);
}

/* Prints so many lines. A line feed inside one would make two of it. */
int write_noise(uint64_t seed, uint64_t lines) {
    Random random = random_for(seed, 0);
    if (!fill_stock(seed)) return 2;
    unsigned line = 0;
    for (uint64_t n = 0; n < lines; n++) {
        size_t length = make_line(&random, line);
        for (size_t i = 0; i < length; i++)
            if (noise[i] == '\n') noise[i] = 0;
        fwrite(noise, 1, length, stdout);
        putchar('\n');
        line = random_chance(&random, 3) ? random_below(&random, stock.count) : (line + 1) % stock.count;
    }
    return fflush(stdout) == 0 ? 0 : 2;
}
