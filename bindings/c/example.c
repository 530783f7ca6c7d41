/* Draws the example of RULES 9.9 through the header: as text, by its steps, and again after a pixel has changed. */
#include "twillgoose.h"

#include <stdio.h>
#include <string.h>

#define WIDTH 2
#define HEIGHT 1
#define STEPS 2
#define PICTURE (4 * WIDTH * HEIGHT)

static const char steps[] = "flood\t0\t0\t1\t1\t255\t0\t0\t0.5\tsrgb\n"
                            "over\t0\t0\t2\t1\t0\tsrc\tsrgb\n";

static void show(const char *name, uint64_t number, uint64_t place, const uint8_t *workspace)
{
    uint64_t offset;
    uint64_t length = twillgoose_layer(WIDTH, HEIGHT, STEPS, STEPS - 1, PICTURE * STEPS, &offset);
    printf("%s: %d at %d, last layer", name, (int)number, (int)place);
    for (uint64_t i = 0; i < length; i++) {
        printf(i % 4 == 0 ? " %02x" : "%02x", workspace[offset + i]);
    }
    printf("\n");
}

int main(void)
{
    uint8_t source[PICTURE] = {0x00, 0x00, 0xff, 0xff, 0x00, 0x00, 0x00, 0x80};
    uint8_t workspace[PICTURE * STEPS] = {0};
    uint8_t scratch[2 * PICTURE] = {0};
    const uint8_t *lines = (const uint8_t *)steps;
    uint64_t place, count;

    printf("rules of the header and of the library: %d and %d\n", TWILLGOOSE_RULES, (int)twillgoose_rules());

    uint64_t number = twillgoose_render(WIDTH, HEIGHT, lines, strlen(steps), source, sizeof source,
                                        workspace, sizeof workspace, scratch, sizeof scratch, &place);
    show("render", number, place, workspace);

    source[4] = 0x40;
    number = twillgoose_redraw(WIDTH, HEIGHT, lines, strlen(steps), 1, 0, 1, 1, source, sizeof source,
                               workspace, sizeof workspace, scratch, sizeof scratch, &place, &count);
    show("redraw", number, place, workspace);
    printf("pixels worked: %d\n", (int)count);

    source[4] = 0x81;
    number = twillgoose_render(WIDTH, HEIGHT, lines, strlen(steps), source, sizeof source,
                               workspace, sizeof workspace, scratch, sizeof scratch, &place);
    show("a colour above its alpha", number, place, workspace);

    char text[256];
    uint8_t out[2371];
    int text_length = snprintf(text, sizeof text, "canvas\t2\t1\n%srow\t0000ffff\t00000080\n", steps);
    uint64_t length = twillgoose_sheet((const uint8_t *)text, (size_t)text_length, out, sizeof out);
    printf("sheet:\n%.*s", (int)length, (const char *)out);
    return 0;
}
