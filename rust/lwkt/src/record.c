// The recorder's calls as functions, for src/record.rs.
#include "lwkt_record.h"

size_t lwkt_rust_record_size(void);
size_t lwkt_rust_record_size(void) { return sizeof(lwkt_record); }

#define CALL(NAME, PARAMETERS, ARGUMENTS) \
    int lwkt_rust_record_##NAME PARAMETERS; \
    int lwkt_rust_record_##NAME PARAMETERS { return lwkt_record_##NAME ARGUMENTS; }

CALL(open, (lwkt_record *recorder, uint32_t processors, uint32_t tokens, uint32_t messages, size_t room),
     (recorder, processors, tokens, messages, room))
CALL(keep_last, (lwkt_record *recorder), (recorder))
CALL(token, (lwkt_record *recorder, uint32_t token, uint32_t law, uint64_t param, uint64_t generation, const uint64_t *cells, uint32_t count),
     (recorder, token, (enum lwkt_record_law)law, param, generation, cells, count))
CALL(message, (lwkt_record *recorder, uint32_t message, uint32_t processor, uint32_t thread, uint64_t round),
     (recorder, message, processor, thread, round))
CALL(enter, (lwkt_record *recorder, uint32_t *number), (recorder, number))
CALL(leave, (lwkt_record *recorder, uint32_t number), (recorder, number))
CALL(take, (lwkt_record *recorder, uint32_t processor, uint32_t token), (recorder, processor, token))
CALL(share, (lwkt_record *recorder, uint32_t processor, uint32_t token), (recorder, processor, token))
CALL(again, (lwkt_record *recorder, uint32_t processor, uint32_t token), (recorder, processor, token))
CALL(mark, (lwkt_record *recorder, uint32_t processor, uint32_t token), (recorder, processor, token))
CALL(give, (lwkt_record *recorder, uint32_t processor, uint32_t token), (recorder, processor, token))
CALL(read, (lwkt_record *recorder, uint32_t processor, uint32_t token, uint32_t cell, uint64_t value), (recorder, processor, token, cell, value))
CALL(write, (lwkt_record *recorder, uint32_t processor, uint32_t token, uint32_t cell, uint64_t value), (recorder, processor, token, cell, value))
CALL(send, (lwkt_record *recorder, uint32_t processor, uint32_t message, uint32_t target, uint64_t round),
     (recorder, processor, message, target, round))
CALL(take_message, (lwkt_record *recorder, uint32_t processor, uint32_t message, uint64_t round), (recorder, processor, message, round))
CALL(drop, (lwkt_record *recorder, uint32_t processor, uint32_t message), (recorder, processor, message))
CALL(reply, (lwkt_record *recorder, uint32_t processor, uint32_t message), (recorder, processor, message))
CALL(reap, (lwkt_record *recorder, uint32_t processor, uint32_t message), (recorder, processor, message))
CALL(abort, (lwkt_record *recorder, uint32_t processor, uint32_t message), (recorder, processor, message))
CALL(end, (lwkt_record *recorder), (recorder))
CALL(end_cells, (lwkt_record *recorder, uint32_t token, const uint64_t *cells, uint32_t count), (recorder, token, cells, count))
CALL(end_generation, (lwkt_record *recorder, uint32_t token, uint64_t generation), (recorder, token, generation))
CALL(end_references, (lwkt_record *recorder, uint32_t token, uint64_t references), (recorder, token, references))
CALL(in_lines, (lwkt_record *recorder, bool in_lines), (recorder, in_lines))
CALL(to_sink, (lwkt_record *recorder, lwkt_record_sink sink, void *context), (recorder, sink, context))
CALL(drain, (lwkt_record *recorder, lwkt_record_sink sink, void *context), (recorder, sink, context))
CALL(lost, (const lwkt_record *recorder), (recorder))

CALL(where_to, (lwkt_record *recorder, lwkt_record_sink sink, void *context), (recorder, sink, context))

void lwkt_rust_record_at(lwkt_record *recorder, uint32_t processor, const char *text);
void lwkt_rust_record_at(lwkt_record *recorder, uint32_t processor, const char *text) { lwkt_record_at(recorder, processor, text); }

void lwkt_rust_record_close(lwkt_record *recorder);
void lwkt_rust_record_close(lwkt_record *recorder) { lwkt_record_close(recorder); }

size_t lwkt_rust_record_room(const lwkt_record *recorder, uint32_t processor);
size_t lwkt_rust_record_room(const lwkt_record *recorder, uint32_t processor) { return lwkt_record_room(recorder, processor); }
