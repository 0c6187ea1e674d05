/* The first MAP of a channel, as docs/simulators.md has it. */
#include <stdio.h>
#include <upsched.h>

int main(void)
{
    static uint8_t body[UPSCHED_BODY_BYTES];
    upsched_handle machine = {0};
    upsched_output output = {0};
    const upsched_command channel = {.kind = UPSCHED_CHANNEL, .ch = 1, .ucd = 7, .short_max = 16, .base = 1000};
    const upsched_command cut = {.kind = UPSCHED_CUT, .ch = 1, .minislots = 100};
    if (upsched_machine_open(&machine)) return 1;
    if (upsched_machine_apply(&machine, &channel, &output, body)) return 1;
    if (upsched_machine_apply(&machine, &cut, &output, body)) return 1;
    for (size_t i = 0; i < output.body_len; i++) printf("%02x", body[i]);
    printf("\n");
    upsched_close(&machine);
    return 0;
}
