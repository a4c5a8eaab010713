// Runs the script on standard input and writes what shows the run, by the arguments of this program, as `lwkt_show` has them; or
// why it isn't shown. The exit status is that of `lwkt_show`.
#include <string.h>

#include "tool.h"

// The arguments with a blank between each two.
static tool_text join(int count, char **words) {
    tool_text joined = {tool_room(NULL, 0), 0};
    for (int i = 1; i < count; i += 1) {
        size_t length = strlen(words[i]);
        joined.bytes = tool_room(joined.bytes, joined.length + length + 1);
        if (i > 1) joined.bytes[joined.length++] = ' ';
        memcpy(joined.bytes + joined.length, words[i], length);
        joined.length += length;
    }
    return joined;
}

int main(int count, char **words) {
    tool_text script = tool_read(), arguments = join(count, words), text = {NULL, 0};
    uint32_t status;
    TOOL_CALL(text, status,
              lwkt_show_turns(script.bytes, script.length, arguments.bytes, arguments.length, text.bytes, room, &answer));
    free(script.bytes);
    free(arguments.bytes);
    return tool_end(text, status);
}
