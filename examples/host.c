/* Boots a zone of 64 frames, fills a group up to its limit, and prints what it uses: see docs/EMBED.md, "From C". */
#include <stdio.h>
#include <stdlib.h>
#include <string.h>
#include <tempolemon.h>

#define BYTES(text) (text), strlen(text)

static tempolemon_handle host;
static tempolemon_result result;

static void ask(uint8_t status, const char *what) {
    if (status == TEMPOLEMON_DONE) return;
    fprintf(stderr, "%s: %s (%u)\n", what, tempolemon_status_text(status), status);
    exit(EXIT_FAILURE);
}

int main(void) {
    const tempolemon_sizes sizes = {.frames = 64, .cpus = 2, .batch = 4, .high = 8, .stock = 4};
    tempolemon_report report;
    uint8_t status;
    char text[256];

    ask(tempolemon_boot(&sizes, &host), "boot");
    ask(tempolemon_mkdir(&host, 1, BYTES("/web"), &result), "mkdir");
    const uint32_t web = (uint32_t)result.number;
    ask(tempolemon_write(&host, 1, BYTES("/web"), BYTES("memory.max"), BYTES("128K"), &result), "write");

    while ((status = tempolemon_alloc(&host, 1, web, 4, &result)) == TEMPOLEMON_DONE) {
        const uint32_t frame = (uint32_t)result.number;
        printf("frame %u\n", frame);
        ask(tempolemon_dirty(&host, 1, frame, &result), "dirty"); /* so that it isn't reclaimed */
    }
    printf("refused %u\n", status);
    ask(tempolemon_read(&host, 1, BYTES("/web"), BYTES("memory.current"), text, sizeof text, &result), "read");
    printf("%.*s", (int)result.number, text);

    ask(tempolemon_end(&host, &report), "end");
    printf("%u of %u frames were charged\n", report.charged, report.frames);
    return EXIT_SUCCESS;
}
