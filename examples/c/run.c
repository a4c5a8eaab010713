// Runs the script on standard input and writes its report, or why there is none. The exit status is that of `lwkt_run turns`.
#include "tool.h"

int main(void) {
    tool_text script = tool_read(), text = {NULL, 0};
    uint32_t status;
    TOOL_CALL(text, status, lwkt_run_turns(script.bytes, script.length, text.bytes, room, &answer));
    free(script.bytes);
    return tool_end(text, status);
}
