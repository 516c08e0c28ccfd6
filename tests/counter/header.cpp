// The header serves C++ too: a program over it compiles, links and runs.
#include "tozbierdu.h"

#ifdef TOZBIERDU_STRUCK
#error "a program that stores the old mark must not compile"
#endif

int main()
{
    const uint64_t result = settle(3, 0, nullptr, 0, nullptr, 0, nullptr, 0, nullptr, 0, nullptr, 0, nullptr, 0, nullptr, 0,
                                   nullptr, 0, nullptr, 0);
    const bool right = tozbierdu_refused(result) && tozbierdu_number(result) == TOZBIERDU_REFUSED_MEASURE;
    return right && tozbierdu_place(result) == 0 ? 0 : 1;
}
