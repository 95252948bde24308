#include "sides.h"

#include "oracle.h"

const side sides[SIDES] = {
    [ARCHIVE] = {"archive", serifdove_check, serifdove_check_profile, serifdove_cold_start, serifdove_warm_start, serifdove_latch,
                 serifdove_run, serifdove_publish, serifdove_read_rows, serifdove_write_rows},
    [ORACLE] = {"oracle", oracle_check, oracle_check_profile, oracle_cold_start, oracle_warm_start, oracle_latch, oracle_run,
                oracle_publish, oracle_read_rows, oracle_write_rows},
};

void put_calls(side *to, const side *from) {
    to->cold_start = from->cold_start != NULL ? from->cold_start : to->cold_start;
    to->warm_start = from->warm_start != NULL ? from->warm_start : to->warm_start;
    to->latch = from->latch != NULL ? from->latch : to->latch;
    to->run = from->run != NULL ? from->run : to->run;
    to->publish = from->publish != NULL ? from->publish : to->publish;
}

bool same_answer(serifdove_answer a, serifdove_answer b) {
    return a.number == b.number && a.place == b.place && a.first == b.first && a.second == b.second;
}
