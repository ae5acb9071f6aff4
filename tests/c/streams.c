/* The bench program once more, in C and through the C calls: the same records give the same lines. */
#include "lines.h"
#include "records.h"

int main(void)
{
    struct record record;
    enum reading reading = RECORD;

    for (unsigned long number = 1; reading == RECORD; number++) {
        reading = read_record(&record);
        if (reading == AT_END)
            break;
        if (reading == RECORD)
            call_record(&record);
        else
            answer = 256 * BAD_RECORD;
        print_call(number, cendurak_refusal(answer));
        print_frames();
    }
    return 0;
}
