/* The functions of ccan.h, each over the one of the proved library that tools/build/checked_library has named unchecked_ccan_*. */
#include "enter.h"

#define CALL(result, name, parameters, arguments, ...) result unchecked_##name parameters;
#include "calls.h"

#define CALL(result, name, parameters, arguments, ...) \
    result name parameters                             \
    {                                                  \
        struct argument given[] = { __VA_ARGS__ END }; \
        checked_enter(CALL_##name, given);             \
        result answer = unchecked_##name arguments;    \
        checked_leave(given);                          \
        return answer;                                 \
    }
#include "calls.h"
