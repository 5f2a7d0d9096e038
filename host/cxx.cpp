// The header in C++: one call, and a record read.
#include "emulate.h"

#include <cstdio>
#include <vector>

int main()
{
    // A routine without blocks: the name `f`, one type without letters, a head, nothing else.
    const std::vector<uint8_t> routine = {
        6, 0, 26, 0, 2, 0, 28, 0, 1, 0, 29, 0, 13, 0, 42, 0, 0, 0, 42, 0, 0, 0, 42, 0, 0, 0,
        1, 'f', 0, 0, 0, 0, 0, 0, 0, 0, 0, 0, 0, 0, 0, 0
    };
    const std::vector<uint8_t> world = { 3, 0, 14, 0, 0, 0, 14, 0, 0, 0, 14, 0, 0, 0 };
    const std::vector<uint8_t> call = { 1, 0, 6, 0, 8, 0, 10, 0, 0, 0, 8, 0, 0, 0 };
    std::vector<uint8_t> record(EMULATE_RECORD_LEAST), workspace(EMULATE_WORKSPACE_NEEDED);
    const emulate_answer answer = run(routine.data(), routine.size(), world.data(), world.size(),
                                      call.data(), call.size(), record.data(), record.size(),
                                      workspace.data(), workspace.size());
    emulate_stop stop;
    const emulate_bytes made = emulate_record(record.data(), answer);
    if (answer.number != EMULATE_RAN || answer.length != EMULATE_RECORD_LEAST
        || emulate_read_stop(emulate_body(made, EMULATE_BODY_STOP), &stop) != EMULATE_SIZE_STOP
        || stop.kind != EMULATE_STOP_NO_BLOCKS) {
        std::printf("cxx.cpp: %s\n", emulate_refusal_text(answer.number));
        return 1;
    }
    std::printf("C++: %s\n", emulate_stop_text(stop.kind));
    return 0;
}
