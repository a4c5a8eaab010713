// Judges the trace on standard input and writes what was found, or why nothing was. The exit status is that of `lwkt_check`.
#include "tool.h"

int main(void) {
    tool_text trace = tool_read(), text = {NULL, 0};
    uint32_t status;
    TOOL_CALL(text, status, lwkt_check_trace(trace.bytes, trace.length, text.bytes, room, &answer));
    free(trace.bytes);
    return tool_end(text, status);
}
