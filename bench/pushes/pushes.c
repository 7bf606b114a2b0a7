/* Pushes and peeks through the C library, as plain.rs does them without it. */
#include <fdbrec.h>
#include <stdio.h>
#include <stdlib.h>
#include <string.h>

static uint8_t out[100 * 200];

static void put(uint8_t *at, uint64_t number, int size)
{
    while (size-- > 0)
        *at++ = (uint8_t)(number >> 8 * size);
}

/* Batch number n, of 100 bytes: it sets a key of 8 bytes to 82. */
static void spell(uint64_t n, uint8_t *bytes)
{
    memset(bytes, (int)(n & 255), 100);
    memcpy(bytes, (const uint8_t[]){1, 0, 1, 1, 0, 8}, 6);
    put(bytes + 6, n, 8);
    put(bytes + 14, 82, 4);
}

static void must(uint32_t status)
{
    if (status != FDBREC_OK) {
        fprintf(stderr, "pushes: status %u\n", status);
        exit(1);
    }
}

static void ask(fdbrec_part **log, const char *line)
{
    size_t len;
    must(fdbrec_ask(log, (const uint8_t *)line, strlen(line), out, sizeof out, &len));
}

int main(int words, char **word)
{
    uint64_t count = words > 1 ? strtoull(word[1], NULL, 10) : 0, held, upto, known, sum = 0;
    size_t len, bytes = 0;
    uint8_t batch[100];
    fdbrec_part *log = NULL;
    must(fdbrec_log_new(&log, 257, 0, 1, 1));
    ask(&log, "{\"log\":{\"seed\":{\"epoch\":257,\"first\":1,\"records\":[],\"seeded_to\":0}}}");
    ask(&log, "{\"log\":{\"push\":{\"bodies\":[],\"epoch\":257,\"known\":0,\"mark\":[{\"epoch\":257,\"first\":1,\"k\":1,"
              "\"m\":1,\"seeded_to\":0}],\"prev\":0,\"version\":1}}}");
    for (uint64_t n = 0; n < count; n++) {
        spell(n, batch);
        fdbrec_push_numbers at = {.epoch = 257, .prev = n + 1, .version = n + 2, .known = n + 1};
        must(fdbrec_log_push(&log, &at, batch, sizeof batch, &held));
    }
    for (uint64_t after = 1; after < count + 1; after = upto) {
        fdbrec_peek_numbers at = {.epoch = 257, .after = after, .most = 100};
        must(fdbrec_log_peek(&log, &at, out, sizeof out, &len, &upto, &known));
        bytes += len;
        for (size_t at = 0; at < len; at += 61)
            sum = sum * 31 + out[at];
    }
    fdbrec_free(&log);
    printf("%llu pushes, %zu bytes peeked, sum %llu\n", (unsigned long long)count, bytes, (unsigned long long)sum);
    return 0;
}
