/* Writes a grid's body, joins two tiles by it, turns the picture, prints it, and asks what its top left place shows; then
 * asks for a place outside, and how many records a tray has that is cut short, and says why both are refused.
 *
 *     cc -I include include/example.c target/staticlib/libcapi.a -o target/example && target/example
 */
#include "compose.h"
#include <stdio.h>
#include <stdlib.h>

/* The body of a grid, which is at most 12 bytes long. */
static uint8_t body[12];
static size_t body_len;

/* Two records. Each is 2 x 2, mono, depth 8, no alpha; one plane of stride 2 and 4 bytes. */
static const uint8_t tray[] = {2, 2, 2, 0, 8, 0, 2, 4, 1, 2, 3, 4, 2, 2, 0, 8, 0, 2, 4, 5, 6, 7, 8};

/* One property: an irot, essential, a quarter turn. */
static const uint8_t chain[] = {1, 2, 1, 1};

/* Whether a call refused; then the sentence says why. */
static int refused(uint64_t answer)
{
    uint8_t sentence[COMPOSE_SENTENCE];
    if (!COMPOSE_IS_REFUSAL(answer))
        return 0;
    uint64_t length = compose_sentence(COMPOSE_REFUSAL(answer), COMPOSE_SORT(answer), COMPOSE_INDEX(answer),
                                       COMPOSE_ENGLISH, sentence, sizeof sentence);
    printf("%.*s\n", (int)length, (const char *)sentence);
    return 1;
}

static void print(const uint8_t *record, size_t length)
{
    uint64_t words[17];
    if (refused(compose_record(record, length, words, 17)))
        return;
    uint64_t width = words[0], height = words[1], luma = words[5], stride = words[7];
    for (uint64_t y = 0; y < height; y++) {
        for (uint64_t x = 0; x < width; x++)
            printf(" %d", record[luma + y * stride + x]);
        printf("\n");
    }
}

/* What a place of the turned picture shows. */
static void ask(uint32_t column, uint32_t row)
{
    uint32_t words[10];
    printf("(%d, %d): ", (int)column, (int)row);
    uint64_t answer = compose_grid_point(body, body_len, tray, sizeof tray, chain, sizeof chain, 0, column, row,
                                         words, 10);
    if (!refused(answer))
        printf("tile %d at (%d, %d)\n", (int)words[1], (int)words[2], (int)words[3]);
}

int main(void)
{
    /* One row of two tiles, on a canvas of 4 x 2. */
    uint64_t written = compose_write_grid(1, 2, 4, 2, body, sizeof body);
    if (refused(written))
        return 1;
    body_len = (size_t)written;
    /* Output and spare must have room for the longest of the composed record and the turned one. */
    uint64_t room = compose_grid_scene_room(body, body_len, tray, sizeof tray, chain, sizeof chain, 0);
    if (refused(room))
        return 1;
    uint8_t *output = (uint8_t *)malloc(room), *spare = (uint8_t *)malloc(room);
    if (!output || !spare)
        return 1;
    uint64_t length = compose_grid_scene(body, body_len, tray, sizeof tray, chain, sizeof chain, 0, output, room,
                                         spare, room);
    if (refused(length))
        return 1;
    print(output, (size_t)length);
    ask(0, 0);
    ask(2, 0);
    printf("cut short: ");
    refused(compose_tray(tray, sizeof tray - 1));
    free(output);
    free(spare);
    return 0;
}
